"""Sources whose runs are profiled."""

# Calls in loops and in branches, two functions of one name, recursion, a parting in each form, lanes that leave together, and a fault at the end.
MIXED = """uniform int a[8];
int half(int x) {
    if (x > 5) {
        return x - 5;
    }
    return x;
}
int half(uniform int x) { return x; }
uniform int down(uniform int n) {
    if (n > 0) {
        uniform int below = down(n - 1);
        return below + 1;
    }
    return 0;
}
export void go() {
    int i = programIndex;
    int x = 0;
    while (i < 9) {
        int h = half(i);
        i += h + 1;
        if (i % 2 == 0) continue;
        x++;
    }
    if (programIndex < 3) {
        x = x + 1;
        x = x + 2;
    } else {
        x = 0;
    }
    uniform int d = 0;
    int e = 0;
    switch (x % 3) {
    case 0:
        x = 7;
        break;
    case 1:
        x = 8;
    default:
        x = half(x);
        d = down(3);
        e = half(2);
        x += d + e;
    }
    foreach (k = 0 ... 11)
        a[k % 8] += k;
    x = 5 / (programIndex - 2);
}
"""
# Each foreach form: in one another, in a called function, in a branch, without a round, and left by `continue`.
FORMED = """uniform int a[64];
void fill(uniform int n) {
    foreach (k = 0 ... n)
        a[k] = k;
}
export void go() {
    int x = programIndex;
    foreach (i = 3 ... 14) {
        if (i > 9) continue;
        a[i] += i;
    }
    foreach_tiled (row = 0 ... 3, column = 0 ... 5) {
        a[row * 8 + column] = row;
        foreach_active (lane) {
            a[lane] += 1;
        }
    }
    foreach (none = 5 ... 5)
        a[none] = 1;
    if (programIndex % 3 != 0) {
        foreach_unique (value in x / 3) {
            x += value;
            x += 1;
        }
    } else {
        foreach_active (lane)
            x -= lane;
    }
    for (uniform int turn = 1; turn < 4; ++turn)
        fill(turn * 5);
    switch (x & 1) {
    case 0:
        foreach (j = 0 ... 2, k = 0 ... 3)
            a[j + k] += 1;
        break;
    default:
        foreach (j = 0 ... 20)
            x += 1;
    }
}
"""
# Tabs, controls, letters of several bytes that a table's column cuts, and bytes that are no text; and a comment that is not closed by its line.
HOSTILE = b"""export void go() { // \xff\x00\x1b[31m
\tint x = 1;\t// \t"\\
    x = 2; // 45678901234567890123456789012345678901234\xc3\xa9\xe2\x82\xac\xe2\x82\xac
    x = 3; // 4567890123456789012345678901234567890123456789
}
"""
# A recursion three deep in some lanes, which two functions do in turn, negative numbers, and two functions of one name.
DEEP = """uniform int total = 0;
int odd(int n) {
    if (n >= -1)
        return 0;
    int less = even(n + 1);
    return less + 1;
}
int even(int n) {
    if (n >= -1)
        return 0;
    int less = odd(n + 1);
    return less + 1;
}
int twice(int x) { return x * 2; }
uniform int twice(uniform int x) { return x - 2; }
export void go() {
    int n = -programIndex;
    int x = 0;
    uniform int k = 0;
    while (n < 0) {
        int y = 0;
        y = even(n > -4 ? n : -4);
        x += y;
        n += 3;
    }
    x = twice(x);
    k = twice(k);
    if (x < k)
        x = odd(-3);
}
"""
EMPTY = "export void go() {\n}\n"
ENDLESS = "export void go() {\n    int x = 0;\n    while (true) {\n        x += programIndex;\n    }\n}\n"

# Calls by fewer and fewer lanes, one within another, and of a function that does nothing.
CALLED = """void last() {
}
int half(int x) {
    return x / 2;
}
export void go() {
    int x = programIndex;
    for (uniform int i = 0; i < 3; i++) {
        if (programIndex > i)
            x = half(x + 2);
    }
    x = half(x);
    last();
}
"""
