// How often do n queens stand on a board of n by n so that none attacks another (OEIS A000170)? A lane has the boards whose first queen stands
// in its column. They are counted twice: by a function that calls itself, and with a stack of each lane.
#define MOST 16

uniform int recursive = 0, stacked = 0;

static int solutions(int all, int columns, int up, int down) {
    if (columns == all) return 1;
    int count = 0, free = all & ~(columns | up | down);
    while (free) {
        int queen = free & -free;
        free ^= queen;
        count += solutions(all, columns | queen, (up | queen) << 1, (down | queen) >> 1);
    }
    return count;
}

static int by_stack(int all, int queen) {
    int open[MOST], taken[MOST], rising[MOST], falling[MOST];
    int count = 0, level = 0;
    taken[0] = queen, rising[0] = queen << 1, falling[0] = queen >> 1;
    open[0] = all & ~(taken[0] | rising[0] | falling[0]);
    while (level >= 0) {
        if (taken[level] == all) count++;
        if (open[level] == 0) {
            level--;
            continue;
        }
        queen = open[level] & -open[level];
        open[level++] ^= queen;
        taken[level] = taken[level - 1] | queen;
        rising[level] = (rising[level - 1] | queen) << 1;
        falling[level] = (falling[level - 1] | queen) >> 1;
        open[level] = all & ~(taken[level] | rising[level] | falling[level]);
    }
    return count;
}

export void queens(uniform int n) {
    const uniform int all = (1 << n) - 1;
    foreach (i = 0 ... n) {
        int queen = 1 << i;
        int found = solutions(all, queen, queen << 1, queen >> 1), other = by_stack(all, queen);
        recursive += reduce_add(found), stacked += reduce_add(other);
    }
}
