// Sudoku by backtracking: of the open cells the one with the fewest candidates is filled first. A lane has a cell where that one is looked for,
// and a row, column or box where the solution is checked. What was filled is kept level by level, so that it can be taken back.
uniform int board[81];
uniform int rows[9];            // the digits that are there, a bit each
uniform int columns[9];
uniform int boxes[9];
uniform int cells[81];          // which cell is filled at each level
uniform int left[81];           // its candidates that are not tried yet, a bit each
uniform int level = 0;
uniform int tries = 0;
uniform int wrong = -1;         // how many rows, columns and boxes have not all digits, at the end

void put(uniform int cell, uniform int digit) {
    uniform int bit = 1 << digit;
    board[cell] = digit;
    rows[cell / 9] |= bit;
    columns[cell % 9] |= bit;
    boxes[cell / 27 * 3 + cell % 9 / 3] |= bit;
}

void take(uniform int cell) {
    uniform int bit = ~(1 << board[cell]);
    board[cell] = 0;
    rows[cell / 9] &= bit;
    columns[cell % 9] &= bit;
    boxes[cell / 27 * 3 + cell % 9 / 3] &= bit;
}

// The open cell with the fewest candidates, as candidates * 128 + cell; 9999 where no cell is open.
uniform int choose() {
    uniform int best = 9999;
    foreach (c = 0 ... 81) {
        int key = 9999;
        if (board[c] == 0) {
            int used = rows[c / 9] | columns[c % 9] | boxes[c / 27 * 3 + c % 9 / 3];
            key = popcnt(0x3fe & ~used) * 128 + c;
        }
        best = min(best, reduce_min(key));
    }
    return best;
}

void check() {
    wrong = 0;
    foreach (u = 0 ... 27) {
        int k = u % 9;
        int seen = 0;
        for (uniform int j = 0; j < 9; j++) {
            int cell = u < 9 ? k * 9 + j : u < 18 ? j * 9 + k : (k / 3 * 3 + j / 3) * 9 + k % 3 * 3 + j % 3;
            seen |= 1 << board[cell];
        }
        wrong += popcnt(seen != 0x3fe);
    }
}

export void solve(uniform int givens[]) {
    for (uniform int c = 0; c < 81; c++)
        if (givens[c]) put(c, givens[c]);
    while (true) {
        uniform int best = choose();
        if (best == 9999) break;
        uniform int c = best % 128;
        cells[level] = c;
        left[level] = 0x3fe & ~(rows[c / 9] | columns[c % 9] | boxes[c / 27 * 3 + c % 9 / 3]);
        while (left[level] == 0) {
            level--;
            assert(level >= 0);
            take(cells[level]);
        }
        uniform int bit = left[level] & -left[level];
        left[level] ^= bit;
        put(cells[level], popcnt(bit - 1));
        tries++;
        level++;
    }
    check();
}
