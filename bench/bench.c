// Compares the proved SHA-256 and HMAC-SHA-256 with OpenSSL and with plain C, then measures them.
// Without OpenSSL's headers (-DNO_OPENSSL) the figures and the comparison that need it are left out.
#include "plain.h"

#include <stdbool.h>
#include <stdio.h>
#include <stdlib.h>
#include <string.h>
#include <time.h>

#ifndef NO_OPENSSL
#include <openssl/evp.h>
#include <openssl/hmac.h>
#include <openssl/opensslv.h>
#include <openssl/sha.h>
#endif

// The functions of the crate `exports`: a slice is a pointer and then a length.
bool limedistaff_sha256(const uint8_t *message, size_t length, uint8_t *out, size_t out_length);
bool limedistaff_hmac(const uint8_t *key, size_t key_length, const uint8_t *message, size_t length,
                      uint8_t *out, size_t out_length);

enum { DIGEST = 32, LARGEST = 1 << 20, COMPARED = 3000, KEYS = 200, PASSES = 15 };

static const double PASS_SECONDS = 0.02;

static double seconds(void) {
    struct timespec t;
    clock_gettime(CLOCK_MONOTONIC, &t);
    return (double)t.tv_sec + (double)t.tv_nsec * 1e-9;
}

typedef void Hash(const uint8_t *message, size_t length, uint8_t digest[DIGEST]);

static void proved_sha256(const uint8_t *message, size_t length, uint8_t digest[DIGEST]) {
    if (!limedistaff_sha256(message, length, digest, DIGEST)) abort();
}

// HMAC of a message under a key of 32 bytes, which stand before the message.
static void proved_hmac32(const uint8_t *message, size_t length, uint8_t digest[DIGEST]) {
    if (!limedistaff_hmac(message - DIGEST, DIGEST, message, length, digest, DIGEST)) abort();
}

#ifndef NO_OPENSSL
static void openssl_sha256(const uint8_t *message, size_t length, uint8_t digest[DIGEST]) {
    SHA256(message, length, digest);
}

static void openssl_hmac(const uint8_t *key, size_t key_length, const uint8_t *message, size_t length,
                         uint8_t digest[DIGEST]) {
    unsigned written = 0;
    HMAC(EVP_sha256(), key, (int)key_length, message, length, digest, &written);
}

static void openssl_hmac32(const uint8_t *message, size_t length, uint8_t digest[DIGEST]) {
    openssl_hmac(message - DIGEST, DIGEST, message, length, digest);
}
#endif

static void expect_same(const char *what, size_t length, const uint8_t *found, const uint8_t *wanted) {
    if (memcmp(found, wanted, DIGEST) == 0) return;
    printf("%s differs at a message of %zu bytes\n", what, length);
    exit(1);
}

// Every length below COMPARED, and one of many blocks; keys of every length below KEYS.
static void compare(const uint8_t *bytes) {
    uint8_t proved[DIGEST], other[DIGEST];
    for (size_t i = 0; i <= COMPARED; i++) {
        size_t length = i < COMPARED ? i : LARGEST;
        proved_sha256(bytes, length, proved);
        clang_sha256(bytes, length, other);
        expect_same("SHA-256 by clang's C", length, proved, other);
        gcc_sha256(bytes, length, other);
        expect_same("SHA-256 by gcc's C", length, proved, other);
#ifndef NO_OPENSSL
        openssl_sha256(bytes, length, other);
        expect_same("SHA-256 by OpenSSL", length, proved, other);
        if (!limedistaff_hmac(bytes, i % KEYS, bytes + 7, length, proved, DIGEST)) abort();
        openssl_hmac(bytes, i % KEYS, bytes + 7, length, other);
        expect_same("HMAC-SHA-256 by OpenSSL", length, proved, other);
#endif
    }
    printf("compared: SHA-256 with plain C at lengths 0 to %d and %d: same\n", COMPARED - 1, LARGEST);
#ifndef NO_OPENSSL
    printf("compared: SHA-256 and HMAC-SHA-256 (keys of 0 to %d bytes) with OpenSSL at the same lengths: same\n",
           KEYS - 1);
#else
    printf("not compared with OpenSSL: its headers are not installed\n");
#endif
}

// One pass: seconds for a call, over enough calls to fill PASS_SECONDS. Each call's input depends on the last digest.
static double pass(Hash *hash, uint8_t *message, size_t length, long calls) {
    uint8_t digest[DIGEST];
    double start = seconds();
    for (long i = 0; i < calls; i++) {
        hash(message, length, digest);
        message[0] ^= digest[0];
    }
    return (seconds() - start) / (double)calls;
}

static long calls_for(Hash *hash, uint8_t *message, size_t length) {
    long calls = 1;
    while (pass(hash, message, length, calls) * (double)calls < PASS_SECONDS) calls *= 2;
    return calls;
}

// The best of PASSES passes of each function. The functions take turns, so that all meet the same state of the machine.
static void measure(Hash *const *hashes, int count, uint8_t *message, size_t length, double *best) {
    long calls[8];
    for (int k = 0; k < count; k++) {
        calls[k] = calls_for(hashes[k], message, length);
        best[k] = 1e9;
    }
    for (int round = 0; round < PASSES; round++) {
        for (int k = 0; k < count; k++) {
            double each = pass(hashes[k], message, length, calls[k]);
            if (each < best[k]) best[k] = each;
        }
    }
}

static void report_sha256(uint8_t *message, size_t length) {
#ifndef NO_OPENSSL
    Hash *hashes[] = {proved_sha256, clang_sha256, gcc_sha256, openssl_sha256};
    const char *names[] = {"proved", "clang C", "gcc C", "OpenSSL"};
    const int count = 4;
#else
    Hash *hashes[] = {proved_sha256, clang_sha256, gcc_sha256};
    const char *names[] = {"proved", "clang C", "gcc C"};
    const int count = 3;
#endif
    double best[4];
    measure(hashes, count, message, length, best);
    for (int k = 0; k < count; k++) {
        printf("SHA-256 %8zu bytes  %-8s %12.1f ns %8.1f MB/s\n", length, names[k], best[k] * 1e9,
               (double)length / best[k] / 1e6);
    }
    printf("SHA-256 %8zu bytes  throughput proved / clang C %.2f, proved / gcc C %.2f\n", length,
           best[1] / best[0], best[2] / best[0]);
}

// A message of 44 bytes is one block: its digest is one compression with its padding.
static void report_hmac(uint8_t *message) {
    enum { ONE_BLOCK = 44 };
    Hash *one[] = {proved_sha256};
    double block;
    measure(one, 1, message, ONE_BLOCK, &block);
#ifndef NO_OPENSSL
    Hash *hashes[] = {proved_hmac32, openssl_hmac32};
    double best[2];
    measure(hashes, 2, message, DIGEST, best);
    printf("HMAC 32/32 proved %.1f ns, OpenSSL %.1f ns\n", best[0] * 1e9, best[1] * 1e9);
#else
    Hash *hashes[] = {proved_hmac32};
    double best[1];
    measure(hashes, 1, message, DIGEST, best);
    printf("HMAC 32/32 proved %.1f ns\n", best[0] * 1e9);
#endif
    printf("HMAC 32/32 proved / four digests of one block (%.1f ns each) %.2f\n", block * 1e9, best[0] / (4 * block));
}

int main(void) {
    const size_t lengths[] = {44, 396, LARGEST};
    uint8_t *bytes = malloc(LARGEST + DIGEST + 64);
    if (bytes == NULL) return 1;
    for (size_t i = 0; i < LARGEST + DIGEST + 64; i++) bytes[i] = (uint8_t)(i * 131 + (i >> 8));
#ifndef NO_OPENSSL
    printf("OpenSSL: %s\n", OPENSSL_VERSION_TEXT);
#endif
    compare(bytes);
    printf("input: bytes i * 131 + i / 256 modulo 256; best of %d passes of %.0f ms and more, the functions in turn\n",
           PASSES, PASS_SECONDS * 1e3);
    for (size_t i = 0; i < sizeof lengths / sizeof lengths[0]; i++) report_sha256(bytes, lengths[i]);
    report_hmac(bytes + DIGEST);
    free(bytes);
    return 0;
}
