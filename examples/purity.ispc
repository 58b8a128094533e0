int triangle(int n) {
    if (n < 1) return 0;
    int below = triangle(n - 1);
    return n + below;
}

int total(int x) { return reduce_add(x); }

export void go() {
    int t = triangle(programIndex);
    int all = total(t);
}
