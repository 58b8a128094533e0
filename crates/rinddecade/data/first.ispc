export void go() {
    int x = programIndex * 3;
    x += 1;
}
