int f(int k) {
    int r = k + 1;
    if (k > 1) return r;
    return f(r);
}
export void go() {
    int x = f(programIndex);
    int y = f(2);
}
