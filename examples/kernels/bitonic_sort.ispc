// Bitonic sort (Batcher, Sorting networks and their applications, 1968) of n numbers in place, n being a power of 2. A lane has an element: it
// compares it with its partner's, and exchanges the two where they stand the wrong way. No two lanes of a round store to one element.
uniform int a[64];

export void sort(uniform int n) {
    for (uniform int k = 2; k <= n; k *= 2) {
        for (uniform int j = k / 2; j > 0; j /= 2) {
            foreach (i = 0 ... n) {
                int partner = i ^ j;
                if (partner > i) {
                    int x = a[i];
                    int y = a[partner];
                    bool up = (i & k) == 0;
                    if (up ? x > y : x < y) {
                        a[i] = y;
                        a[partner] = x;
                    }
                }
            }
        }
    }
}
