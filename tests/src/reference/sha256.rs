//! SHA-256, from FIPS 180-4. The constants are computed from their definitions, so that they
//! share no typing error with a table.

use std::collections::HashMap;

/// 4.2.2: the first 32 bits of the fractional parts of the cube roots of the first 64 primes.
const K: [u32; 64] = fractions_of_roots(3);

/// 5.3.3: the first 32 bits of the fractional parts of the square roots of the first 8 primes.
const H0: [u32; 8] = fractions_of_roots(2);

const fn fractions_of_roots<const N: usize>(degree: u32) -> [u32; N] {
    let mut words = [0; N];
    let mut prime: u128 = 2;
    let mut n = 0;
    while n < N {
        // The root of prime * 2^(32 * degree) is the prime's root, shifted 32 bits up.
        words[n] = whole_root(prime << (32 * degree), degree) as u32;
        n += 1;
        prime += 1;
        while !is_prime(prime) {
            prime += 1;
        }
    }
    words
}

/// The largest number whose power is at most `of`.
const fn whole_root(of: u128, degree: u32) -> u128 {
    let (mut low, mut high) = (0, 1 << 40);
    while high - low > 1 {
        let middle: u128 = (low + high) / 2;
        if middle.pow(degree) <= of {
            low = middle;
        } else {
            high = middle;
        }
    }
    low
}

const fn is_prime(n: u128) -> bool {
    let mut d = 2;
    while d * d <= n {
        if n % d == 0 {
            return false;
        }
        d += 1;
    }
    true
}

/// 5.1.1: the bit 1, zeros up to 448 modulo 512, and the length in bits as 64 bits.
fn padded(message: &[u8]) -> Vec<u8> {
    let mut bytes = message.to_vec();
    bytes.push(0x80);
    while bytes.len() % 64 != 56 {
        bytes.push(0);
    }
    bytes.extend_from_slice(&(8 * message.len() as u64).to_be_bytes());
    bytes
}

/// 6.2.2: the hash value after one more block.
fn after_block(hash: [u32; 8], block: &[u8]) -> [u32; 8] {
    let mut w = [0u32; 64];
    for (t, bytes) in block.chunks_exact(4).enumerate() {
        w[t] = u32::from_be_bytes(bytes.try_into().unwrap());
    }
    for t in 16..64 {
        let small0 = w[t - 15].rotate_right(7) ^ w[t - 15].rotate_right(18) ^ (w[t - 15] >> 3);
        let small1 = w[t - 2].rotate_right(17) ^ w[t - 2].rotate_right(19) ^ (w[t - 2] >> 10);
        w[t] = small1.wrapping_add(w[t - 7]).wrapping_add(small0).wrapping_add(w[t - 16]);
    }
    let [mut a, mut b, mut c, mut d, mut e, mut f, mut g, mut h] = hash;
    for t in 0..64 {
        let big1 = e.rotate_right(6) ^ e.rotate_right(11) ^ e.rotate_right(25);
        let choice = (e & f) ^ (!e & g);
        let t1 = h.wrapping_add(big1).wrapping_add(choice).wrapping_add(K[t]).wrapping_add(w[t]);
        let big0 = a.rotate_right(2) ^ a.rotate_right(13) ^ a.rotate_right(22);
        let majority = (a & b) ^ (a & c) ^ (b & c);
        let t2 = big0.wrapping_add(majority);
        (h, g, f, e, d, c, b, a) = (g, f, e, d.wrapping_add(t1), c, b, a, t1.wrapping_add(t2));
    }
    let turned = [a, b, c, d, e, f, g, h];
    std::array::from_fn(|i| hash[i].wrapping_add(turned[i]))
}

pub fn digest(message: &[u8]) -> [u8; 32] {
    let hash = padded(message).chunks_exact(64).fold(H0, after_block);
    let mut bytes = [0; 32];
    for (i, word) in hash.iter().enumerate() {
        bytes[4 * i..4 * i + 4].copy_from_slice(&word.to_be_bytes());
    }
    bytes
}

/// Hashes with their messages: what was hashed once is not hashed again.
#[derive(Default)]
pub struct Remembered(HashMap<Vec<u8>, [u8; 32]>);

impl Remembered {
    pub fn digest(&mut self, message: &[u8]) -> [u8; 32] {
        if let Some(hash) = self.0.get(message) {
            return *hash;
        }
        let hash = digest(message);
        self.0.insert(message.to_vec(), hash);
        hash
    }
}
