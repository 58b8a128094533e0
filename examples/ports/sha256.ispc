// SHA-256 (FIPS 180-4) of several messages, which stand in `text` one behind the other: a lane has a message, and those with short ones wait
// for the others.
#pragma once

#define BLOCK 64
#define WORDS 8

const uniform uint32_t K[64] = {
    0x428a2f98, 0x71374491, 0xb5c0fbcf, 0xe9b5dba5, 0x3956c25b, 0x59f111f1, 0x923f82a4, 0xab1c5ed5,
    0xd807aa98, 0x12835b01, 0x243185be, 0x550c7dc3, 0x72be5d74, 0x80deb1fe, 0x9bdc06a7, 0xc19bf174,
    0xe49b69c1, 0xefbe4786, 0x0fc19dc6, 0x240ca1cc, 0x2de92c6f, 0x4a7484aa, 0x5cb0a9dc, 0x76f988da,
    0x983e5152, 0xa831c66d, 0xb00327c8, 0xbf597fc7, 0xc6e00bf3, 0xd5a79147, 0x06ca6351, 0x14292967,
    0x27b70a85, 0x2e1b2138, 0x4d2c6dfc, 0x53380d13, 0x650a7354, 0x766a0abb, 0x81c2c92e, 0x92722c85,
    0xa2bfe8a1, 0xa81a664b, 0xc24b8b70, 0xc76c51a3, 0xd192e819, 0xd6990624, 0xf40e3585, 0x106aa070,
    0x19a4c116, 0x1e376c08, 0x2748774c, 0x34b0bcb5, 0x391c0cb3, 0x4ed8aa4a, 0x5b9cca4f, 0x682e6ff3,
    0x748f82ee, 0x78a5636f, 0x84c87814, 0x8cc70208, 0x90befffa, 0xa4506ceb, 0xbef9a3f7, 0xc67178f2,
};
uniform uint32_t digests[16 * WORDS];      // eight words of each message

static inline uint32_t rotate_right(uint32_t x, int n);

static inline uint32_t rotate_right(uint32_t x, int n) {
    return x >> n | x << (32 - n);
}

// Byte p of a message with its padding: the bit 1, zeros, and the length in bits as eight bytes.
static uint32_t byte_at(const uniform uint8_t text[], int start, int length, int end, int p) {
    if (p < length) return text[start + p];
    if (p == length) return 0x80;
    if (p < end - 8) return 0;
    return (uint64_t)length * 8 >> 8 * (end - 1 - p) & 0xff;
}

export void sha256(uniform int messages, uniform int start[], uniform int length[], uniform uint8_t text[]) {
    foreach (m = 0 ... messages) {
        uint32_t schedule[64];
        uint32_t h0 = 0x6a09e667, h1 = 0xbb67ae85, h2 = 0x3c6ef372, h3 = 0xa54ff53a;
        uint32_t h4 = 0x510e527f, h5 = 0x9b05688c, h6 = 0x1f83d9ab, h7 = 0x5be0cd19;
        int end = (length[m] + 9 + BLOCK - 1) / BLOCK * BLOCK;

        for (int block = 0; block < end; block += BLOCK) {
            for (uniform int t = 0; t < 16; t++) {
                schedule[t] = 0;
                for (uniform int j = 0; j < 4; j++)
                    schedule[t] = schedule[t] << 8 | byte_at(text, start[m], length[m], end, block + 4 * t + j);
            }
            for (uniform int t = 16; t < 64; t++) {
                uint32_t x = schedule[t - 15], y = schedule[t - 2];
                schedule[t] = schedule[t - 16] + (rotate_right(x, 7) ^ rotate_right(x, 18) ^ x >> 3)
                    + schedule[t - 7] + (rotate_right(y, 17) ^ rotate_right(y, 19) ^ y >> 10);
            }

            uint32_t a = h0, b = h1, c = h2, d = h3, e = h4, f = h5, g = h6, h = h7;
            for (uniform int t = 0; t < 64; t++) {
                uint32_t t1 = h + (rotate_right(e, 6) ^ rotate_right(e, 11) ^ rotate_right(e, 25)) + (e & f ^ ~e & g) + K[t] + schedule[t];
                uint32_t t2 = (rotate_right(a, 2) ^ rotate_right(a, 13) ^ rotate_right(a, 22)) + (a & b ^ a & c ^ b & c);
                h = g, g = f, f = e, e = d + t1;
                d = c, c = b, b = a, a = t1 + t2;
            }
            h0 += a, h1 += b, h2 += c, h3 += d;
            h4 += e, h5 += f, h6 += g, h7 += h;
        }
        int at = WORDS * m;
        digests[at++] = h0;
        digests[at++] = h1;
        digests[at++] = h2;
        digests[at++] = h3;
        digests[at++] = h4;
        digests[at++] = h5;
        digests[at++] = h6;
        digests[at++] = h7;
    }
}
