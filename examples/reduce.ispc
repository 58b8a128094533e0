// The sum of what the lanes hold, the sum of those before each lane, and the values turned round.
export void go() {
    int value = (programIndex + 1) * (programIndex + 1);
    uniform int64 total = reduce_add(value);
    int before = exclusive_scan_add(value);
    int turned = shuffle(value, programCount - 1 - programIndex);
    int large = 0;
    if (value > 3) {
        total = reduce_add(value);
        large = exclusive_scan_add(value);
    }
    assert(before < 10);
}
