//! The second implementation's making and listing as a library for C, to be contenders. They stand apart from
//! reference.rs: what stands beside a function can change how it is compiled, and with it the speed of a peer.

#[allow(dead_code)]
#[path = "../src/reference/mod.rs"]
mod reference;

use reference::server::Server;
use reference::version::{RECORD, USERS};

#[no_mangle]
pub extern "C" fn reference_make(users: u8, server: &mut Server) -> u8 {
    match Server::make(users) {
        Ok(made) => {
            *server = made;
            0
        }
        Err(refusal) => refusal.0,
    }
}

/// The number of records; there is room for all there can be.
#[no_mangle]
pub extern "C" fn reference_list(server: &Server, out: &mut [u8; RECORD * USERS]) -> u32 {
    server.list(out).unwrap_or(0)
}
