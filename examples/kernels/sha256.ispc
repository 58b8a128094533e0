// SHA-256 (FIPS 180-4) of several messages, which stand in `text` one behind the other: a lane has a message, and those with short ones wait
// for the others. Its sixty-four words of a block stand in a column of `schedule`. The constants K come from the input.
uniform unsigned int K[64];
uniform unsigned int schedule[1024];
uniform unsigned int digests[128];     // eight words of each message

unsigned int rotate_right(unsigned int x, int n) {
    return x >> n | x << (32 - n);
}

// Byte p of a message with its padding: the bit 1, zeros, and the length in bits as eight bytes.
unsigned int byte_at(const uniform uint8 text[], int start, int length, int end, int p) {
    if (p < length) return text[start + p];
    if (p == length) return 0x80;
    if (p < end - 8) return 0;
    return (unsigned int64)length * 8 >> 8 * (end - 1 - p) & 0xff;
}

export void sha256(uniform int messages, uniform int start[], uniform int length[], uniform uint8 text[]) {
    foreach (m = 0 ... messages) {
        unsigned int h0 = 0x6a09e667;
        unsigned int h1 = 0xbb67ae85;
        unsigned int h2 = 0x3c6ef372;
        unsigned int h3 = 0xa54ff53a;
        unsigned int h4 = 0x510e527f;
        unsigned int h5 = 0x9b05688c;
        unsigned int h6 = 0x1f83d9ab;
        unsigned int h7 = 0x5be0cd19;
        int end = (length[m] + 9 + 63) / 64 * 64;

        for (int block = 0; block < end; block += 64) {
            for (uniform int t = 0; t < 16; t++) {
                unsigned int w = 0;
                for (uniform int j = 0; j < 4; j++) {
                    unsigned int b = byte_at(text, start[m], length[m], end, block + 4 * t + j);
                    w = w << 8 | b;
                }
                schedule[t * programCount + programIndex] = w;
            }
            for (uniform int t = 16; t < 64; t++) {
                unsigned int x = schedule[(t - 15) * programCount + programIndex];
                unsigned int y = schedule[(t - 2) * programCount + programIndex];
                unsigned int x7 = rotate_right(x, 7);
                unsigned int x18 = rotate_right(x, 18);
                unsigned int y17 = rotate_right(y, 17);
                unsigned int y19 = rotate_right(y, 19);
                schedule[t * programCount + programIndex] =
                    schedule[(t - 16) * programCount + programIndex] + (x7 ^ x18 ^ x >> 3)
                    + schedule[(t - 7) * programCount + programIndex] + (y17 ^ y19 ^ y >> 10);
            }

            unsigned int a = h0;
            unsigned int b = h1;
            unsigned int c = h2;
            unsigned int d = h3;
            unsigned int e = h4;
            unsigned int f = h5;
            unsigned int g = h6;
            unsigned int h = h7;
            for (uniform int t = 0; t < 64; t++) {
                unsigned int e6 = rotate_right(e, 6);
                unsigned int e11 = rotate_right(e, 11);
                unsigned int e25 = rotate_right(e, 25);
                unsigned int a2 = rotate_right(a, 2);
                unsigned int a13 = rotate_right(a, 13);
                unsigned int a22 = rotate_right(a, 22);
                unsigned int choice = e & f ^ ~e & g;
                unsigned int majority = a & b ^ a & c ^ b & c;
                unsigned int t1 = h + (e6 ^ e11 ^ e25) + choice + K[t] + schedule[t * programCount + programIndex];
                unsigned int t2 = (a2 ^ a13 ^ a22) + majority;
                h = g;
                g = f;
                f = e;
                e = d + t1;
                d = c;
                c = b;
                b = a;
                a = t1 + t2;
            }
            h0 += a;
            h1 += b;
            h2 += c;
            h3 += d;
            h4 += e;
            h5 += f;
            h6 += g;
            h7 += h;
        }
        digests[8 * m] = h0;
        digests[8 * m + 1] = h1;
        digests[8 * m + 2] = h2;
        digests[8 * m + 3] = h3;
        digests[8 * m + 4] = h4;
        digests[8 * m + 5] = h5;
        digests[8 * m + 6] = h6;
        digests[8 * m + 7] = h7;
    }
}
