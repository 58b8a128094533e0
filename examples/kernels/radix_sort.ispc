// Radix sort by digits of 4 bits, as in Intel's example `sort`. A lane has a part of the keys: it counts their digits, and then moves them. Its
// counts stand in a column of `counts`, element digit * programCount + programIndex, so that no lane spoils those of another; the sum of
// all counts before it, digit by digit and lane by lane, is where a lane's next key of that digit belongs.
uniform unsigned int keys[64];
uniform unsigned int other[64];
uniform int counts[256];

void count(uniform int n, uniform int shift, const uniform unsigned int from[]) {
    foreach (i = 0 ... 16 * programCount)
        counts[i] = 0;
    uniform int part = (n + programCount - 1) / programCount;
    int begin = min(programIndex * part, n);
    int end = min(begin + part, n);
    for (int i = begin; i < end; i++) {
        int digit = from[i] >> shift & 15;
        counts[digit * programCount + programIndex]++;
    }
}

// Each count becomes the sum of those before it.
void add_up() {
    uniform int sum = 0;
    foreach (i = 0 ... 16 * programCount) {
        int c = counts[i];
        counts[i] = sum + exclusive_scan_add(c);
        sum += reduce_add(c);
    }
}

void move(uniform int n, uniform int shift, const uniform unsigned int from[], uniform unsigned int to[]) {
    uniform int part = (n + programCount - 1) / programCount;
    int begin = min(programIndex * part, n);
    int end = min(begin + part, n);
    for (int i = begin; i < end; i++) {
        int place = (from[i] >> shift & 15) * programCount + programIndex;
        to[counts[place]] = from[i];
        counts[place]++;
    }
}

void pass(uniform int n, uniform int shift, uniform unsigned int from[], uniform unsigned int to[]) {
    count(n, shift, from);
    add_up();
    move(n, shift, from, to);
}

export void sort(uniform int n) {
    for (uniform int shift = 0; shift < 32; shift += 8) {
        pass(n, shift, keys, other);
        pass(n, shift + 4, other, keys);
    }
}
