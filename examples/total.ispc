uniform int total = 0;

export void go() {
    int x = programIndex * 2;
    total = 10;
    x += total;
    total -= 25;
    x -= total;
}
