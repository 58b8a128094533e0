// Quicksort (Hoare, 1962). The gang partitions one part at a time: each lane has a number of it, and those below the pivot and those above it
// are packed into arrays of their own from the two arms of an `if`. The two parts that come of it wait on a stack.
#define MOST 64

uniform int a[MOST];
uniform int small[MOST], large[MOST];

export void sort(uniform int n) {
    uniform int stack[16] = { 0, n };
    uniform int top = 2;
    while (top > 0) {
        uniform int to = stack[--top];
        uniform int from = stack[--top];
        if (to - from < 2) continue;
        uniform int pivot = a[(from + to) / 2];
        uniform int lows = 0, highs = 0;
        foreach (i = from ... to) {
            int v = a[i];
            if (v < pivot)
                lows += packed_store_active(&small[lows], v);
            else if (v > pivot)
                highs += packed_store_active(&large[highs], v);
        }
        foreach (i = from ... to)
            a[i] = i < from + lows ? small[i - from] : i < to - highs ? pivot : large[i - (to - highs)];

        // The larger part goes below the smaller one, so that there are never more than the logarithm of n on the stack.
        uniform bool is_low = lows > highs;
        stack[top++] = is_low ? from : to - highs;
        stack[top++] = is_low ? from + lows : to;
        stack[top++] = is_low ? to - highs : from;
        stack[top++] = is_low ? to : from + lows;
    }
}
