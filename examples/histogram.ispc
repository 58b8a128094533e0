// How many of twelve values lie in each quarter of 0 to 15: counted by a scatter, and by asking the lanes.
uniform int count[4];
uniform int asked[4];

export void go() {
    for (uniform int i = 0; i < 3; i++) {
        int value = (programIndex * 7 + i * 5) % 16;
        int quarter = value / 4;
        count[quarter] += 1;
        for (uniform int q = 0; q < 4; q++)
            asked[q] += popcnt(quarter == q);
    }
    assert(count[programIndex] == asked[programIndex]);
}
