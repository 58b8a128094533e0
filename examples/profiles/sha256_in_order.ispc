// SHA-256 (FIPS 180-4) of several messages, with the messages and the results of ../kernels/sha256.ispc. Those with more blocks come first, and a
// turn of the one loop takes a block of each lane's message: a lane whose message is done takes the next one at once.
uniform unsigned int K[64];
uniform unsigned int schedule[1024];
uniform unsigned int digests[128];     // eight words of each message
uniform int order[16];

unsigned int rotate_right(unsigned int x, int n) {
    return x >> n | x << (32 - n);
}

// Byte p of a message with its padding: the bit 1, zeros, and the length in bits as eight bytes.
unsigned int byte_at(const uniform uint8 text[], int start, int length, int end, int p) {
    return p < length ? text[start + p] : p == length ? 0x80 : p < end - 8 ? 0 : (unsigned int64)length * 8 >> 8 * (end - 1 - p) & 0xff;
}

uniform int blocks_of(uniform int length) {
    return (length + 9 + 63) / 64;
}

// The numbers of the messages, those with more blocks first.
void put_in_order(uniform int messages, const uniform int length[]) {
    for (uniform int m = 0; m < messages; m++) {
        uniform int blocks = blocks_of(length[m]);
        uniform int k = m;
        while (k > 0) {
            uniform int before = blocks_of(length[order[k - 1]]);
            if (before >= blocks) break;
            order[k] = order[k - 1];
            k--;
        }
        order[k] = m;
    }
}

export void sha256(uniform int messages, uniform int start[], uniform int length[], uniform uint8 text[]) {
    put_in_order(messages, length);
    uniform int taken = programCount;
    int place = programIndex;          // of the lane's message in the order
    int block = 0;
    unsigned int h0;
    unsigned int h1;
    unsigned int h2;
    unsigned int h3;
    unsigned int h4;
    unsigned int h5;
    unsigned int h6;
    unsigned int h7;
    while (place < messages) {
        int m = order[place];
        int end = (length[m] + 9 + 63) / 64 * 64;
        h0 = block > 0 ? h0 : 0x6a09e667;
        h1 = block > 0 ? h1 : 0xbb67ae85;
        h2 = block > 0 ? h2 : 0x3c6ef372;
        h3 = block > 0 ? h3 : 0xa54ff53a;
        h4 = block > 0 ? h4 : 0x510e527f;
        h5 = block > 0 ? h5 : 0x9b05688c;
        h6 = block > 0 ? h6 : 0x1f83d9ab;
        h7 = block > 0 ? h7 : 0x5be0cd19;
        for (uniform int t = 0; t < 16; t++) {
            unsigned int w = 0;
            for (uniform int j = 0; j < 4; j++) {
                unsigned int b = byte_at(text, start[m], length[m], end, block + 4 * t + j);
                w = w << 8 | b;
            }
            schedule[t * programCount + programIndex] = w;
        }
        for (uniform int t = 16; t < 64; t++) {
            unsigned int x = schedule[(t - 15) * programCount + programIndex];
            unsigned int y = schedule[(t - 2) * programCount + programIndex];
            unsigned int x7 = rotate_right(x, 7);
            unsigned int x18 = rotate_right(x, 18);
            unsigned int y17 = rotate_right(y, 17);
            unsigned int y19 = rotate_right(y, 19);
            schedule[t * programCount + programIndex] =
                schedule[(t - 16) * programCount + programIndex] + (x7 ^ x18 ^ x >> 3)
                + schedule[(t - 7) * programCount + programIndex] + (y17 ^ y19 ^ y >> 10);
        }

        unsigned int a = h0;
        unsigned int b = h1;
        unsigned int c = h2;
        unsigned int d = h3;
        unsigned int e = h4;
        unsigned int f = h5;
        unsigned int g = h6;
        unsigned int h = h7;
        for (uniform int t = 0; t < 64; t++) {
            unsigned int e6 = rotate_right(e, 6);
            unsigned int e11 = rotate_right(e, 11);
            unsigned int e25 = rotate_right(e, 25);
            unsigned int a2 = rotate_right(a, 2);
            unsigned int a13 = rotate_right(a, 13);
            unsigned int a22 = rotate_right(a, 22);
            unsigned int choice = e & f ^ ~e & g;
            unsigned int majority = a & b ^ a & c ^ b & c;
            unsigned int t1 = h + (e6 ^ e11 ^ e25) + choice + K[t] + schedule[t * programCount + programIndex];
            unsigned int t2 = (a2 ^ a13 ^ a22) + majority;
            h = g;
            g = f;
            f = e;
            e = d + t1;
            d = c;
            c = b;
            b = a;
            a = t1 + t2;
        }
        h0 += a;
        h1 += b;
        h2 += c;
        h3 += d;
        h4 += e;
        h5 += f;
        h6 += g;
        h7 += h;
        block += 64;
        if (block >= end) {
            digests[8 * m] = h0;
            digests[8 * m + 1] = h1;
            digests[8 * m + 2] = h2;
            digests[8 * m + 3] = h3;
            digests[8 * m + 4] = h4;
            digests[8 * m + 5] = h5;
            digests[8 * m + 6] = h6;
            digests[8 * m + 7] = h7;
            place = taken + exclusive_scan_add(1);
            taken += reduce_add(1);
            block = 0;
        }
    }
}
