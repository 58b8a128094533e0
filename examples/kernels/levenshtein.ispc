// The distance of two words (Levenshtein, 1966): the fewest letters that are put in, left out or changed from the one to the other. The cells of
// an anti-diagonal of its table depend on the two diagonals before alone, so a lane has a cell. Three diagonals are kept in three arrays,
// which change places as they are passed to `diagonal`.
uniform uint8 one[64];
uniform uint8 two[64];
uniform int first[64];
uniform int second[64];
uniform int third[64];
uniform int distance = -1;

// Diagonal d has the cells (i, d - i); `last` is the one before it, `older` the one before that.
void diagonal(uniform int d, uniform int n, uniform int m, const uniform int older[], const uniform int last[], uniform int now[]) {
    foreach (i = max(0, d - m) ... min(n, d) + 1) {
        int j = d - i;
        int v = d;
        if (i > 0 && j > 0) {
            v = older[i - 1] + (one[i - 1] == two[j - 1] ? 0 : 1);
            v = min(v, min(last[i - 1], last[i]) + 1);
        }
        now[i] = v;
    }
    if (d == n + m) distance = now[n];
}

export void go(uniform int n, uniform int m) {
    for (uniform int d = 0; d <= n + m; d += 3) {
        diagonal(d, n, m, second, third, first);
        if (d + 1 <= n + m) diagonal(d + 1, n, m, third, first, second);
        if (d + 2 <= n + m) diagonal(d + 2, n, m, first, second, third);
    }
}
