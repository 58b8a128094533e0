// How often do n queens stand on a board of n by n so that none attacks another (OEIS A000170)? A lane has the boards whose first queen stands
// in its column. They are counted twice: by a function that calls itself, and is lane-pure; and with a stack of each lane, which is a column
// of four arrays, element level * programCount + programIndex.
uniform int recursive = 0;
uniform int stacked = 0;
uniform int open[256];          // columns of this level's row that are not tried yet, a bit each
uniform int taken[256];         // columns with a queen in a row above
uniform int rising[256];        // and those that such a queen attacks along a diagonal
uniform int falling[256];

int solutions(int all, int columns, int up, int down) {
    if (columns == all) return 1;
    int count = 0;
    int free = all & ~(columns | up | down);
    while (free != 0) {
        int queen = free & -free;
        free ^= queen;
        int found = solutions(all, columns | queen, (up | queen) << 1, (down | queen) >> 1);
        count += found;
    }
    return count;
}

export void queens(uniform int n) {
    uniform int all = (1 << n) - 1;
    foreach (i = 0 ... n) {
        int queen = 1 << i;
        int found = solutions(all, queen, queen << 1, queen >> 1);
        recursive += reduce_add(found);
    }

    foreach (i = 0 ... n) {
        int queen = 1 << i;
        taken[programIndex] = queen;
        rising[programIndex] = queen << 1;
        falling[programIndex] = queen >> 1;
        open[programIndex] = all & ~(queen | queen << 1 | queen >> 1);
        int count = 0;
        int level = 0;
        while (level >= 0) {
            int here = level * programCount + programIndex;
            if (taken[here] == all) count++;
            if (open[here] == 0) {
                level--;
                continue;
            }
            queen = open[here] & -open[here];
            open[here] ^= queen;
            level++;
            int next = here + programCount;
            taken[next] = taken[here] | queen;
            rising[next] = (rising[here] | queen) << 1;
            falling[next] = (falling[here] | queen) >> 1;
            open[next] = all & ~(taken[next] | rising[next] | falling[next]);
        }
        stacked += reduce_add(count);
    }
}
