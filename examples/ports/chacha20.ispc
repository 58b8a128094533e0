// The key stream of ChaCha20 (RFC 8439, 2.3). Four lanes hold a block: each has a column of its 4 by 4 words, and a, b, c and d are the rows.
#define ROUNDS 20
#define COLUMNS 4

uniform uint32_t stream[8 * 16];

static const uniform uint32_t constants[COLUMNS] = { 0x61707865, 0x3320646e, 0x79622d32, 0x6b206574 };

inline uint32_t rotate_left(uint32_t x, int n) {
    return x << n | x >> (32 - n);
}

// Each lane gets the value of the n-th lane behind it among its four.
noinline uint32_t turn(uint32_t x, int n) {
    return shuffle(x, programIndex & ~3 | programIndex + n & 3);
}

export void chacha20(uniform int blocks, uniform uint32_t counter, uniform uint32_t sigma[],
                     uniform uint32_t key[], uniform uint32_t nonce[]) {
    const int column = programIndex & 3;
    for (uniform int first = 0; first < blocks; first += programCount / COLUMNS) {
        int block = first + programIndex / COLUMNS;
        if (block < blocks) {
            uint32_t a = constants[column], b = key[column], c = key[COLUMNS + column];
            uint32_t d = column == 0 ? counter + block : nonce[column - 1], first_d = d;
            for (uniform int round = 0; round < ROUNDS; round++) {
                a += b, d = rotate_left(d ^ a, 16), c += d, b = rotate_left(b ^ c, 12);
                a += b, d = rotate_left(d ^ a, 8), c += d, b = rotate_left(b ^ c, 7);
                // To the diagonals by 1, 2 and 3 lanes, and back by 3, 2 and 1.
                uniform int n = round % 2 == 0 ? 1 : 3;
                b = turn(b, n), c = turn(c, 2), d = turn(d, 4 - n);
            }
            int at = block * 16 + column;
            stream[at] = a + constants[column];
            stream[at + 4] = b + key[column];
            stream[at + 8] = c + key[COLUMNS + column];
            stream[at + 12] = d + first_d;
        }
    }
}
