export void go() {
    int x = 0;
    while (x < 2) {
        x += 1;
        if (programIndex == 1) break;
        if (programIndex == 2) continue;
        x += programIndex;
    }
}
