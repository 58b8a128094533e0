// Sudoku by backtracking: of the open cells the one with the fewest candidates is filled first. A lane has a cell where that one is looked for,
// and a row, column or box where the solution is checked. What was filled is kept level by level, so that it can be taken back.
#define SIDE 9
#define CELLS (SIDE * SIDE)
#define NONE 9999

uniform int board[CELLS];
uniform int rows[SIDE], columns[SIDE], boxes[SIDE];     // the digits that are there, a bit each
uniform int cells[CELLS];       // which cell is filled at each level
uniform int left[CELLS];        // its candidates that are not tried yet, a bit each
uniform int level = 0, tries = 0;
uniform int wrong = -1;         // how many rows, columns and boxes have not all digits, at the end

inline uniform int box(uniform int cell) { return cell / 27 * 3 + cell % SIDE / 3; }
inline int box(int cell) { return cell / 27 * 3 + cell % SIDE / 3; }

void put(uniform int cell, uniform int digit) {
    uniform int bit = 1 << digit, b = box(cell);
    board[cell] = digit;
    rows[cell / SIDE] |= bit, columns[cell % SIDE] |= bit, boxes[b] |= bit;
}

void take(uniform int cell) {
    uniform int bit = ~(1 << board[cell]), b = box(cell);
    board[cell] = 0;
    rows[cell / SIDE] &= bit, columns[cell % SIDE] &= bit, boxes[b] &= bit;
}

// The open cell with the fewest candidates, as candidates * 128 + cell; NONE where no cell is open.
uniform int choose() {
    uniform int best = NONE;
    foreach (c = 0 ... CELLS) {
        int key = NONE;
        if (board[c] == 0) {
            int b = box(c);
            key = popcnt(0x3fe & ~(rows[c / SIDE] | columns[c % SIDE] | boxes[b])) * 128 + c;
        }
        best = min(best, reduce_min(key));
    }
    return best;
}

void check() {
    wrong = 0;
    foreach (u = 0 ... 3 * SIDE) {
        int k = u % SIDE, seen = 0;
        for (uniform int j = 0; j < SIDE; j++)
            seen |= 1 << board[u < 9 ? k * 9 + j : u < 18 ? j * 9 + k : (k / 3 * 3 + j / 3) * 9 + k % 3 * 3 + j % 3];
        wrong += popcnt(seen != 0x3fe);
    }
}

export void solve(uniform int givens[]) {
    for (uniform int c = 0; c < CELLS; c++)
        if (givens[c]) put(c, givens[c]);
    uniform int best;
    while ((best = choose()) != NONE) {
        uniform int c = best % 128, b = box(c);
        cells[level] = c;
        left[level] = 0x3fe & ~(rows[c / SIDE] | columns[c % SIDE] | boxes[b]);
        while (left[level] == 0) {
            level--;
            assert(level >= 0);
            take(cells[level]);
        }
        uniform int bit = left[level] & -left[level];
        left[level] ^= bit;
        put(cells[level], popcnt(bit - 1));
        tries++, level++;
    }
    check();
}
