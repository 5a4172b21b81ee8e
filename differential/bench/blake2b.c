// CKB's hash in plain C: BLAKE2b of RFC 7693 without a key, for comparison of speed.
// Like the reference code it relies on a little-endian machine where it copies a block to words.
#include <stddef.h>
#include <stdint.h>
#include <string.h>

enum { BLOCK = 128, ROUNDS = 12 };

// Section 2.6.
static const uint64_t IV[8] = {
    0x6a09e667f3bcc908, 0xbb67ae8584caa73b, 0x3c6ef372fe94f82b, 0xa54ff53a5f1d36f1,
    0x510e527fade682d1, 0x9b05688c2b3e6c1f, 0x1f83d9abfb41bd6b, 0x5be0cd19137e2179,
};

// Section 2.7.
static const uint8_t SIGMA[ROUNDS][16] = {
    {0, 1, 2, 3, 4, 5, 6, 7, 8, 9, 10, 11, 12, 13, 14, 15},
    {14, 10, 4, 8, 9, 15, 13, 6, 1, 12, 0, 2, 11, 7, 5, 3},
    {11, 8, 12, 0, 5, 2, 15, 13, 10, 14, 3, 6, 7, 1, 9, 4},
    {7, 9, 3, 1, 13, 12, 11, 14, 2, 6, 5, 10, 4, 0, 15, 8},
    {9, 0, 5, 7, 2, 4, 10, 15, 14, 1, 11, 12, 6, 8, 3, 13},
    {2, 12, 6, 10, 0, 11, 8, 3, 4, 13, 7, 5, 15, 14, 1, 9},
    {12, 5, 1, 15, 14, 13, 4, 10, 0, 7, 6, 3, 9, 2, 8, 11},
    {13, 11, 7, 14, 12, 1, 3, 9, 5, 0, 15, 4, 8, 6, 2, 10},
    {6, 15, 14, 9, 11, 3, 0, 8, 12, 2, 13, 7, 1, 4, 10, 5},
    {10, 2, 8, 4, 7, 6, 1, 5, 15, 11, 9, 14, 3, 12, 13, 0},
    {0, 1, 2, 3, 4, 5, 6, 7, 8, 9, 10, 11, 12, 13, 14, 15},
    {14, 10, 4, 8, 9, 15, 13, 6, 1, 12, 0, 2, 11, 7, 5, 3},
};

// A hash state. Fewer than 2^64 bytes are fed, so one word counts them.
typedef struct {
    uint64_t h[8];
    uint8_t block[BLOCK];
    size_t filled;
    uint64_t compressed;
} blake2b;

static inline uint64_t rotate_right(uint64_t x, unsigned n) {
    return (x >> n) | (x << (64 - n));
}

// Section 3.1: the function G.
static inline void mix(uint64_t v[16], int a, int b, int c, int d, uint64_t x, uint64_t y) {
    v[a] = v[a] + v[b] + x;
    v[d] = rotate_right(v[d] ^ v[a], 32);
    v[c] = v[c] + v[d];
    v[b] = rotate_right(v[b] ^ v[c], 24);
    v[a] = v[a] + v[b] + y;
    v[d] = rotate_right(v[d] ^ v[a], 16);
    v[c] = v[c] + v[d];
    v[b] = rotate_right(v[b] ^ v[c], 63);
}

// Section 3.2: the function F.
static void compress(blake2b *state, int last) {
    uint64_t v[16], m[16];
    memcpy(m, state->block, BLOCK);
    memcpy(v, state->h, sizeof state->h);
    memcpy(v + 8, IV, sizeof IV);
    v[12] ^= state->compressed;
    if (last)
        v[14] = ~v[14];
    for (int round = 0; round < ROUNDS; round++) {
        const uint8_t *s = SIGMA[round];
        mix(v, 0, 4, 8, 12, m[s[0]], m[s[1]]);
        mix(v, 1, 5, 9, 13, m[s[2]], m[s[3]]);
        mix(v, 2, 6, 10, 14, m[s[4]], m[s[5]]);
        mix(v, 3, 7, 11, 15, m[s[6]], m[s[7]]);
        mix(v, 0, 5, 10, 15, m[s[8]], m[s[9]]);
        mix(v, 1, 6, 11, 12, m[s[10]], m[s[11]]);
        mix(v, 2, 7, 8, 13, m[s[12]], m[s[13]]);
        mix(v, 3, 4, 9, 14, m[s[14]], m[s[15]]);
    }
    for (int i = 0; i < 8; i++)
        state->h[i] ^= v[i] ^ v[i + 8];
}

// CKB's parameter block: 32 bytes of digest, no key, fanout and depth 1, 16 personal bytes.
static void begin(blake2b *state) {
    uint8_t parameters[64] = {32, 0, 1, 1};
    memcpy(parameters + 48, "ckb-default-hash", 16);
    memcpy(state->h, parameters, sizeof parameters);
    for (int i = 0; i < 8; i++)
        state->h[i] ^= IV[i];
    state->filled = 0;
    state->compressed = 0;
}

// A full block waits until a further byte comes, since the last block is compressed otherwise.
static void update(blake2b *state, const uint8_t *data, size_t len) {
    while (len > 0) {
        if (state->filled == BLOCK) {
            state->compressed += BLOCK;
            compress(state, 0);
            state->filled = 0;
        }
        size_t space = BLOCK - state->filled;
        size_t part = len < space ? len : space;
        memcpy(state->block + state->filled, data, part);
        state->filled += part;
        data += part;
        len -= part;
    }
}

static void finish(blake2b *state, uint8_t out[32]) {
    memset(state->block + state->filled, 0, BLOCK - state->filled);
    state->compressed += state->filled;
    compress(state, 1);
    memcpy(out, state->h, 32);
}

// CKB's hash of data that is fed `step` bytes at a time; `step` is above 0.
void plain_c_ckb_hash(const uint8_t *data, size_t len, size_t step, uint8_t out[32]) {
    blake2b state;
    begin(&state);
    for (size_t at = 0; at < len; at += step)
        update(&state, data + at, len - at < step ? len - at : step);
    finish(&state, out);
}
