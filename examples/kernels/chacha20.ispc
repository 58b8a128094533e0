// The key stream of ChaCha20 (RFC 8439, 2.3). Four lanes hold a block: each has a column of its 4 by 4 words, and a, b, c and d are the rows. So
// a gang of four makes one block at a time, one of sixteen four. From column rounds to diagonal ones, and back, shuffles turn the rows.
uniform unsigned int stream[128];

unsigned int rotate_left(unsigned int x, int n) {
    return x << n | x >> (32 - n);
}

// Each lane gets the value of the n-th lane behind it among its four.
unsigned int turn(unsigned int x, int n) {
    return shuffle(x, programIndex & ~3 | programIndex + n & 3);
}

export void chacha20(uniform int blocks, uniform unsigned int counter, uniform unsigned int sigma[],
                     uniform unsigned int key[], uniform unsigned int nonce[]) {
    int column = programIndex & 3;
    for (uniform int first = 0; first < blocks; first += programCount / 4) {
        int block = first + programIndex / 4;
        if (block < blocks) {
            unsigned int a = sigma[column];
            unsigned int b = key[column];
            unsigned int c = key[4 + column];
            unsigned int d = column == 0 ? counter + block : nonce[column - 1];
            unsigned int first_d = d;
            for (uniform int round = 0; round < 20; round++) {
                a += b;
                d = rotate_left(d ^ a, 16);
                c += d;
                b = rotate_left(b ^ c, 12);
                a += b;
                d = rotate_left(d ^ a, 8);
                c += d;
                b = rotate_left(b ^ c, 7);
                // To the diagonals by 1, 2 and 3 lanes, and back by 3, 2 and 1.
                uniform int n = round % 2 == 0 ? 1 : 3;
                b = turn(b, n);
                c = turn(c, 2);
                d = turn(d, 4 - n);
            }
            int at = block * 16 + column;
            stream[at] = a + sigma[column];
            stream[at + 4] = b + key[column];
            stream[at + 8] = c + key[4 + column];
            stream[at + 12] = d + first_d;
        }
    }
}
