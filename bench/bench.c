// Times the proved hash beside plain C and libcrypto, and prints a table of times and ratios.
//   bench openssl     libcrypto alone: five numbers, for a process that runs without the SHA instructions
//   bench N N N N N   all, with these five numbers as one more column
#define OPENSSL_SUPPRESS_DEPRECATED
#include <openssl/sha.h>
#include <stddef.h>
#include <stdint.h>
#include <stdio.h>
#include <stdlib.h>
#include <string.h>
#include <time.h>

// The proved functions, and the same five in C. A slice is a pointer and a length, a reference to an array a pointer.
#define DECLARE(P)                                                                                          \
    void P##_block(uint32_t *state, const uint8_t *block);                                                  \
    uint32_t P##_sha256(const uint8_t *m, size_t n, uint8_t *out);                                          \
    uint32_t P##_hmac(const uint8_t *k, size_t kn, const uint8_t *m, size_t mn, uint8_t *out);              \
    uint32_t P##_prepare(const uint8_t *k, size_t kn, uint32_t *inner, uint32_t *outer);                    \
    uint32_t P##_code(const uint32_t *inner, const uint32_t *outer, const uint32_t *ws, size_t n, uint32_t *out);
DECLARE(hash_exports)
DECLARE(plain)
DECLARE(same)

// libcrypto's low-level calls, which fetch nothing and allocate nothing.
static void openssl_block(uint32_t *state, const uint8_t *block) {
    SHA256_CTX c;
    memcpy(c.h, state, 32);
    SHA256_Transform(&c, block);
    memcpy(state, c.h, 32);
}

static uint32_t openssl_sha256(const uint8_t *m, size_t n, uint8_t *out) {
    SHA256_CTX c;
    SHA256_Init(&c);
    SHA256_Update(&c, m, n);
    SHA256_Final(out, &c);
    return 0;
}

static void padded(SHA256_CTX *c, const uint8_t *k, size_t kn, uint8_t pad) {
    uint8_t block[64];
    for (size_t i = 0; i < 64; i++) block[i] = (i < kn ? k[i] : 0) ^ pad;
    SHA256_Init(c);
    SHA256_Update(c, block, 64);
}

static uint32_t openssl_prepare(const uint8_t *k, size_t kn, uint32_t *inner, uint32_t *outer) {
    SHA256_CTX c;
    padded(&c, k, kn, 0x36);
    memcpy(inner, c.h, 32);
    padded(&c, k, kn, 0x5c);
    memcpy(outer, c.h, 32);
    return 0;
}

static uint32_t openssl_hmac(const uint8_t *k, size_t kn, const uint8_t *m, size_t mn, uint8_t *out) {
    SHA256_CTX c;
    padded(&c, k, kn, 0x36);
    SHA256_Update(&c, m, mn);
    SHA256_Final(out, &c);
    padded(&c, k, kn, 0x5c);
    SHA256_Update(&c, out, 32);
    SHA256_Final(out, &c);
    return 0;
}

// What stands behind one block whose state is h.
static void closed(const uint32_t *h, const uint8_t *m, size_t n, uint8_t *out) {
    SHA256_CTX c;
    SHA256_Init(&c);
    memcpy(c.h, h, 32);
    c.Nl = 512;
    SHA256_Update(&c, m, n);
    SHA256_Final(out, &c);
}

static uint32_t openssl_code(const uint32_t *inner, const uint32_t *outer, const uint32_t *ws, size_t n, uint32_t *out) {
    uint8_t m[52], d[32];
    for (size_t i = 0; i < 4 * n; i++) m[i] = (uint8_t)(ws[i / 4] >> (24 - 8 * (i % 4)));
    closed(inner, m, 4 * n, d);
    closed(outer, d, 32, d);
    for (size_t i = 0; i < 8; i++) out[i] = (uint32_t)d[4 * i] << 24 | (uint32_t)d[4 * i + 1] << 16 | (uint32_t)d[4 * i + 2] << 8 | d[4 * i + 3];
    return 0;
}

struct maker {
    void (*block)(uint32_t *, const uint8_t *);
    uint32_t (*sha256)(const uint8_t *, size_t, uint8_t *);
    uint32_t (*hmac)(const uint8_t *, size_t, const uint8_t *, size_t, uint8_t *);
    uint32_t (*prepare)(const uint8_t *, size_t, uint32_t *, uint32_t *);
    uint32_t (*code)(const uint32_t *, const uint32_t *, const uint32_t *, size_t, uint32_t *);
};
#define MAKER(P) {P##_block, P##_sha256, P##_hmac, P##_prepare, P##_code}

enum { OURS, PLAIN, SAME, OPENSSL, MAKERS };
static const struct maker MAKER[MAKERS] = {MAKER(hash_exports), MAKER(plain), MAKER(same), MAKER(openssl)};

enum { BLOCK, SHORT, LONG, PREPARED, UNPREPARED, CASES };
enum { MIB = 1 << 20, ROUNDS = 40 };
static const char *const CASE[CASES] = {"one block of 64 bytes", "64-byte message", "1 MiB message", "code, 2 words, prepared", "code, 8 bytes, unprepared"};
static const long TURNS[CASES] = {4000, 2000, 1, 2000, 1000};

static uint8_t message[MIB], key[32], digest[32];
static uint32_t state[8], inner[8], outer[8], words[2], code[8];

static void start(const struct maker *by) {
    for (long i = 0; i < MIB; i++) message[i] = (uint8_t)(i * 7 + 1);
    for (int i = 0; i < 32; i++) key[i] = (uint8_t)i;
    for (int i = 0; i < 8; i++) state[i] = (uint32_t)i;
    words[0] = 0x01020304;
    words[1] = 0x05060708;
    by->prepare(key, 32, inner, outer);
}

// One call. What it writes goes into the next call's input, so that the next one waits for it.
static void call(int what, const struct maker *by) {
    switch (what) {
    case BLOCK: by->block(state, message); return;
    case SHORT: by->sha256(message, 64, digest); break;
    case LONG: by->sha256(message, MIB, digest); break;
    case PREPARED: by->code(inner, outer, words, 2, code); words[0] = code[0]; return;
    case UNPREPARED: by->hmac(key, 32, message, 8, digest); break;
    }
    message[0] ^= digest[0];
}

// All must agree on all five cases before they are timed.
static void agree(void) {
    uint8_t seen[MAKERS][CASES][32];
    for (int m = 0; m < MAKERS; m++) {
        start(&MAKER[m]);
        for (int what = 0; what < CASES; what++) {
            call(what, &MAKER[m]);
            memcpy(seen[m][what], what == BLOCK ? (void *)state : what == PREPARED ? (void *)code : (void *)digest, 32);
        }
        if (memcmp(seen[m], seen[OURS], sizeof seen[m])) {
            fprintf(stderr, "bench: the implementations disagree\n");
            exit(1);
        }
    }
}

// Nanoseconds of processor time for one call, so that what else runs on the machine counts less.
static double timed(int what, const struct maker *by) {
    struct timespec from, to;
    clock_gettime(CLOCK_PROCESS_CPUTIME_ID, &from);
    for (long i = 0; i < TURNS[what]; i++) call(what, by);
    clock_gettime(CLOCK_PROCESS_CPUTIME_ID, &to);
    return ((double)(to.tv_sec - from.tv_sec) * 1e9 + (double)(to.tv_nsec - from.tv_nsec)) / (double)TURNS[what];
}

static void table(double best[CASES][MAKERS], char **without) {
    printf("Nanoseconds of processor time for a call, the best of %d rounds. Each buffer is written once before the first round and not cleared\n", ROUNDS);
    printf("between calls, so its pages are there and what is short is in the cache. Ratios are of speed: 1.00 is as fast, 2.00 twice as fast.\n\n");
    printf("%-26s %10s %10s %10s %10s %10s | %6s %6s %8s %8s\n", "", "ours", "C", "C, same", "OpenSSL", "OpenSSL", "ours/", "ours/", "ours/", "ours/");
    printf("%-26s %10s %10s %10s %10s %10s | %6s %6s %8s %8s\n", "", "", "gcc -O3", "loops", "SHA instr", "without", "C", "same", "SHA inst", "without");
    for (int what = 0; what < CASES; what++) {
        double *b = best[what], masked = atof(without[what]);
        printf("%-26s %10.0f %10.0f %10.0f %10.0f %10.0f | %6.2f %6.2f %8.2f %8.2f\n", CASE[what], b[OURS], b[PLAIN], b[SAME], b[OPENSSL], masked, b[PLAIN] / b[OURS], b[SAME] / b[OURS], b[OPENSSL] / b[OURS], masked / b[OURS]);
    }
    double *b = best[LONG];
    printf("%-26s %10.0f %10.0f %10.0f %10.0f %10.0f |\n", "1 MiB message, MB/s", MIB * 1e3 / b[OURS], MIB * 1e3 / b[PLAIN], MIB * 1e3 / b[SAME], MIB * 1e3 / b[OPENSSL], MIB * 1e3 / atof(without[LONG]));
    printf("%-26s", "prepared/unprepared");
    for (int m = 0; m < MAKERS; m++) printf(" %10.2f", best[UNPREPARED][m] / best[PREPARED][m]);
    printf(" %10.2f |\n", atof(without[UNPREPARED]) / atof(without[PREPARED]));
}

int main(int argc, char **argv) {
    int alone = argc == 2 && !strcmp(argv[1], "openssl");
    if (!alone && argc != CASES + 1) return 2;
    agree();
    double best[CASES][MAKERS];
    for (int round = 0; round < ROUNDS; round++)
        for (int what = 0; what < CASES; what++)
            for (int m = alone ? OPENSSL : OURS; m < MAKERS; m++) {
                double t = timed(what, &MAKER[m]);
                if (round == 0 || t < best[what][m]) best[what][m] = t;
            }
    if (alone)
        for (int what = 0; what < CASES; what++) printf("%.1f ", best[what][OPENSSL]);
    else
        table(best, argv + 1);
    return 0;
}
