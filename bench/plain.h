// SHA-256 in plain C, the measure that the proved code is held to.
#ifndef PLAIN_H
#define PLAIN_H

#include <stddef.h>
#include <stdint.h>

// The name carries the compiler, so that two builds of plain.c link into one program.
#define PLAIN_JOINED(compiler, name) compiler##_##name
#define PLAIN_NAMED(compiler, name) PLAIN_JOINED(compiler, name)

void clang_sha256(const uint8_t *message, size_t length, uint8_t digest[32]);
void gcc_sha256(const uint8_t *message, size_t length, uint8_t digest[32]);

#endif
