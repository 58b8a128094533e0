// Radix sort by digits of 4 bits, as in Intel's example `sort`. A lane has a part of the keys: it counts their digits, and then moves them.
enum { DIGIT = 4, DIGITS = 1 << DIGIT, KEYS = 64 };

uniform uint32_t keys[KEYS];
uniform uint32_t other[KEYS];
int counts[DIGITS];             // of each lane its own

void count(uniform int n, uniform int shift, const uniform uint32_t from[]);
void add_up();
void move(uniform int n, uniform int shift, const uniform uint32_t from[], uniform uint32_t to[]);

void count(uniform int n, uniform int shift, const uniform uint32_t from[]) {
    for (uniform int i = 0; i < DIGITS; i++)
        counts[i] = 0;
    uniform int part = (n + programCount - 1) / programCount;
    int begin = min(programIndex * part, n), end = min(begin + part, n);
    for (int i = begin; i < end; i++)
        counts[from[i] >> shift & (DIGITS - 1)]++;
}

// Each count becomes the sum of those before it.
void add_up() {
    uniform int sum = 0;
    for (uniform int i = 0; i < DIGITS; i++) {
        int c = counts[i];
        counts[i] = sum + exclusive_scan_add(c);
        sum += reduce_add(c);
    }
}

void move(uniform int n, uniform int shift, const uniform uint32_t from[], uniform uint32_t to[]) {
    uniform int part = (n + programCount - 1) / programCount;
    int begin = min(programIndex * part, n), end = min(begin + part, n);
    for (int i = begin; i < end; i++)
        to[counts[from[i] >> shift & (DIGITS - 1)]++] = from[i];
}

void pass(uniform int n, uniform int shift, uniform uint32_t from[], uniform uint32_t to[]) {
    count(n, shift, from);
    add_up();
    move(n, shift, from, to);
}

export void sort(uniform int n) {
    for (uniform int shift = 0; shift < 32; shift += 2 * DIGIT) {
        pass(n, shift, keys, other);
        pass(n, shift + DIGIT, other, keys);
    }
}
