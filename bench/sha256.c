// SHA-256 (FIPS 180-4) and HMAC (RFC 2104) in plain C, with no intrinsics. Compiled twice: as FIPS 180-4 has it, the schedule first and then
// the rounds; and with SAME_LOOPS, where each of the first 48 rounds also makes a word of the schedule, as in the proved code.
#include <stddef.h>
#include <stdint.h>
#include <string.h>

#ifdef SAME_LOOPS
#define NAME(f) same_##f
#else
#define NAME(f) plain_##f
#endif

static const uint32_t K[64] = {
    0x428a2f98, 0x71374491, 0xb5c0fbcf, 0xe9b5dba5, 0x3956c25b, 0x59f111f1, 0x923f82a4, 0xab1c5ed5,
    0xd807aa98, 0x12835b01, 0x243185be, 0x550c7dc3, 0x72be5d74, 0x80deb1fe, 0x9bdc06a7, 0xc19bf174,
    0xe49b69c1, 0xefbe4786, 0x0fc19dc6, 0x240ca1cc, 0x2de92c6f, 0x4a7484aa, 0x5cb0a9dc, 0x76f988da,
    0x983e5152, 0xa831c66d, 0xb00327c8, 0xbf597fc7, 0xc6e00bf3, 0xd5a79147, 0x06ca6351, 0x14292967,
    0x27b70a85, 0x2e1b2138, 0x4d2c6dfc, 0x53380d13, 0x650a7354, 0x766a0abb, 0x81c2c92e, 0x92722c85,
    0xa2bfe8a1, 0xa81a664b, 0xc24b8b70, 0xc76c51a3, 0xd192e819, 0xd6990624, 0xf40e3585, 0x106aa070,
    0x19a4c116, 0x1e376c08, 0x2748774c, 0x34b0bcb5, 0x391c0cb3, 0x4ed8aa4a, 0x5b9cca4f, 0x682e6ff3,
    0x748f82ee, 0x78a5636f, 0x84c87814, 0x8cc70208, 0x90befffa, 0xa4506ceb, 0xbef9a3f7, 0xc67178f2,
};

static const uint32_t INITIAL[8] = {
    0x6a09e667, 0xbb67ae85, 0x3c6ef372, 0xa54ff53a, 0x510e527f, 0x9b05688c, 0x1f83d9ab, 0x5be0cd19,
};

static uint32_t rotr(uint32_t x, int n) { return x >> n | x << (32 - n); }

static uint32_t next_word(uint32_t p, uint32_t q, uint32_t r, uint32_t s) {
    return (rotr(p, 17) ^ rotr(p, 19) ^ p >> 10) + q + (rotr(r, 7) ^ rotr(r, 18) ^ r >> 3) + s;
}

static void compress_words(uint32_t state[8], const uint32_t block[16]) {
    uint32_t w[64];
    for (int t = 0; t < 16; t++) w[t] = block[t];
#ifndef SAME_LOOPS
    for (int t = 16; t < 64; t++) w[t] = next_word(w[t - 2], w[t - 7], w[t - 15], w[t - 16]);
#endif
    uint32_t a = state[0], b = state[1], c = state[2], d = state[3];
    uint32_t e = state[4], f = state[5], g = state[6], h = state[7];
#define ROUND(t)                                                                                             \
    uint32_t t1 = h + (rotr(e, 6) ^ rotr(e, 11) ^ rotr(e, 25)) + ((e & f) ^ (~e & g)) + K[t] + w[t];         \
    uint32_t t2 = (rotr(a, 2) ^ rotr(a, 13) ^ rotr(a, 22)) + ((a & b) ^ (a & c) ^ (b & c));                  \
    h = g, g = f, f = e, e = d + t1, d = c, c = b, b = a, a = t1 + t2;
#ifdef SAME_LOOPS
    for (int t = 0; t < 48; t++) {
        ROUND(t)
        w[t + 16] = next_word(w[t + 14], w[t + 9], w[t + 1], w[t]);
    }
    for (int t = 48; t < 64; t++) {
        ROUND(t)
    }
#else
    for (int t = 0; t < 64; t++) {
        ROUND(t)
    }
#endif
    state[0] += a;
    state[1] += b;
    state[2] += c;
    state[3] += d;
    state[4] += e;
    state[5] += f;
    state[6] += g;
    state[7] += h;
}

void NAME(block)(uint32_t state[8], const uint8_t block[64]) {
    uint32_t w[16];
    for (int t = 0; t < 16; t++)
        w[t] = (uint32_t)block[4 * t] << 24 | (uint32_t)block[4 * t + 1] << 16 | (uint32_t)block[4 * t + 2] << 8 | block[4 * t + 3];
    compress_words(state, w);
}

// The state after m and the padding, where `done` bytes, in whole blocks, went before.
static void finish(uint32_t state[8], uint64_t done, const uint8_t *m, size_t n) {
    uint64_t bits = (done + n) * 8;
    for (; n >= 64; m += 64, n -= 64) NAME(block)(state, m);
    uint8_t last[128] = {0};
    memcpy(last, m, n);
    last[n] = 128;
    size_t at = n < 56 ? 56 : 120;
    for (int i = 0; i < 8; i++) last[at + i] = (uint8_t)(bits >> (56 - 8 * i));
    NAME(block)(state, last);
    if (at == 120) NAME(block)(state, last + 64);
}

static void state_bytes(const uint32_t state[8], uint8_t out[32]) {
    for (int i = 0; i < 32; i++) out[i] = (uint8_t)(state[i / 4] >> (24 - 8 * (i % 4)));
}

uint32_t NAME(sha256)(const uint8_t *m, size_t n, uint8_t out[32]) {
    uint32_t state[8];
    memcpy(state, INITIAL, sizeof state);
    finish(state, 0, m, n);
    state_bytes(state, out);
    return 0;
}

uint32_t NAME(prepare)(const uint8_t *k, size_t kn, uint32_t inner[8], uint32_t outer[8]) {
    uint8_t block[64] = {0}, pad[64];
    if (kn <= 64)
        memcpy(block, k, kn);
    else
        NAME(sha256)(k, kn, block);
    memcpy(inner, INITIAL, sizeof INITIAL);
    memcpy(outer, INITIAL, sizeof INITIAL);
    for (int i = 0; i < 64; i++) pad[i] = block[i] ^ 0x36;
    NAME(block)(inner, pad);
    for (int i = 0; i < 64; i++) pad[i] = block[i] ^ 0x5c;
    NAME(block)(outer, pad);
    return 0;
}

// The state after n words, at most 13, behind one block.
static void close_words(uint32_t state[8], const uint32_t *ws, size_t n) {
    uint32_t block[16] = {0};
    memcpy(block, ws, n * 4);
    block[n] = 0x80000000;
    block[15] = (uint32_t)((64 + n * 4) * 8);
    compress_words(state, block);
}

uint32_t NAME(code)(const uint32_t inner[8], const uint32_t outer[8], const uint32_t *ws, size_t n, uint32_t out[8]) {
    uint32_t first[8];
    memcpy(first, inner, sizeof first);
    close_words(first, ws, n);
    memcpy(out, outer, sizeof first);
    close_words(out, first, 8);
    return 0;
}

uint32_t NAME(hmac)(const uint8_t *k, size_t kn, const uint8_t *m, size_t mn, uint8_t out[32]) {
    uint32_t inner[8], outer[8];
    NAME(prepare)(k, kn, inner, outer);
    finish(inner, 64, m, mn);
    close_words(outer, inner, 8);
    state_bytes(outer, out);
    return 0;
}
