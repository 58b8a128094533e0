export void other() { }

export void go() {
    int y = programIndex - 1;
    bool b = y != 0 && 6 / y > 2;
    int z = y == 0 ? 0 : 7 % y;
    uniform uint8 u = 300;
    int w = 7 / y;
}
