#ifndef PORTABLE_SHA256_H
#define PORTABLE_SHA256_H

#include <stddef.h>
#include <stdint.h>

void portable_sha256(const uint8_t *message, size_t len, uint8_t out[32]);

#endif
