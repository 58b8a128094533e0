// Quicksort (Hoare, 1962). The gang partitions one part at a time: each lane has a number of it, and those below the pivot and those above it
// are packed into arrays of their own from the two arms of an `if`. The two parts that come of it wait on a stack.
uniform int a[64];
uniform int small[64];
uniform int large[64];
uniform int stack[16];

export void sort(uniform int n) {
    uniform int top = 2;
    stack[0] = 0;
    stack[1] = n;
    while (top > 0) {
        top -= 2;
        uniform int from = stack[top];
        uniform int to = stack[top + 1];
        if (to - from < 2) continue;
        uniform int pivot = a[(from + to) / 2];
        uniform int lows = 0;
        uniform int highs = 0;
        foreach (i = from ... to) {
            int v = a[i];
            if (v < pivot) {
                uniform int packed = packed_store_active(&small[lows], v);
                lows += packed;
            } else if (v > pivot) {
                uniform int packed = packed_store_active(&large[highs], v);
                highs += packed;
            }
        }
        foreach (i = from ... to)
            a[i] = i < from + lows ? small[i - from] : i < to - highs ? pivot : large[i - (to - highs)];

        // The larger part goes below the smaller one, so that there are never more than the logarithm of n on the stack.
        uniform bool is_low = lows > highs;
        stack[top] = is_low ? from : to - highs;
        stack[top + 1] = is_low ? from + lows : to;
        stack[top + 2] = is_low ? to - highs : from;
        stack[top + 3] = is_low ? to : from + lows;
        top += 4;
    }
}
