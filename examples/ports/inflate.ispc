// Inflate (RFC 1951): what a raw deflate stream stands for, decoded code by code as in `puff` of zlib. The bits of a stream tell where the next
// ones begin, so the gang reads them together, and everything but the copies is uniform.
#define MAXBITS 15
#define MAXLCODES 286
#define FIXLCODES 288
#define MAXDCODES 30

enum Kind { STORED, FIXED, DYNAMIC };

uniform uint8_t out[1k];
uniform int size = 0, at = 0;   // at: the bit of the stream that comes next
uniform int lengths[320];       // of the codes of a block, in bits
uniform int counts[MAXBITS + 1], symbols[320];
uniform int distance_counts[MAXBITS + 1], distance_symbols[32];

uniform int bits(const uniform uint8_t data[], uniform int n) {
    uniform int v = 0;
    for (uniform int i = 0; i < n; i++, at++)
        v |= (data[at >> 3] >> (at & 7) & 1) << i;
    return v;
}

// The canonical code whose lengths are the n from `first` on.
void construct(uniform int first, uniform int n, uniform int count[], uniform int symbol[]) {
    uniform int offsets[MAXBITS + 1];
    foreach (i = 0 ... MAXBITS + 1)
        count[i] = 0;
    for (uniform int i = 0; i < n; i++)
        count[lengths[first + i]]++;
    offsets[1] = 0;
    for (uniform int l = 1; l < MAXBITS; l++)
        offsets[l + 1] = offsets[l] + count[l];
    for (uniform int i = 0; i < n; i++) {
        uniform int l = lengths[first + i];
        if (l != 0)
            symbol[offsets[l]++] = i;
    }
}

uniform int decode(const uniform uint8_t data[], const uniform int count[], const uniform int symbol[]) {
    uniform int code, first, index;
    code = first = index = 0;
    for (uniform int l = 1; l <= MAXBITS; l++) {
        code |= bits(data, 1);
        if (code - count[l] < first) return symbol[index + code - first];
        index += count[l];
        first = (first + count[l]) << 1;
        code <<= 1;
    }
    assert(false);
    return -1;
}

void codes(const uniform uint8_t data[]) {
    static const uniform int length_base[29] = {
        3, 4, 5, 6, 7, 8, 9, 10, 11, 13, 15, 17, 19, 23, 27, 31, 35, 43, 51, 59, 67, 83, 99, 115, 131, 163, 195, 227, 258 };
    static const uniform int length_extra[29] = {
        0, 0, 0, 0, 0, 0, 0, 0, 1, 1, 1, 1, 2, 2, 2, 2, 3, 3, 3, 3, 4, 4, 4, 4, 5, 5, 5, 5, 0 };
    static const uniform int distance_base[30] = {
        1, 2, 3, 4, 5, 7, 9, 13, 17, 25, 33, 49, 65, 97, 129, 193, 257, 385, 513, 769, 1025, 1537, 2049, 3073, 4097, 6145, 8193, 12289, 16385, 24577 };
    static const uniform int distance_extra[30] = {
        0, 0, 0, 0, 1, 1, 2, 2, 3, 3, 4, 4, 5, 5, 6, 6, 7, 7, 8, 8, 9, 9, 10, 10, 11, 11, 12, 12, 13, 13 };
    uniform int s;
    while ((s = decode(data, counts, symbols)) != 256) {
        if (s < 256) {
            out[size++] = s;
            continue;
        }
        uniform int length = length_base[s - 257] + bits(data, length_extra[s - 257]);
        uniform int d = decode(data, distance_counts, distance_symbols);
        uniform int distance = distance_base[d] + bits(data, distance_extra[d]);
        assert(distance <= size);
        foreach (i = 0 ... length)
            out[size + i] = out[size - distance + i % distance];
        size += length;
    }
}

void stored(const uniform uint8_t data[]) {
    at = (at + 7) / 8 * 8;
    uniform int length = bits(data, 16), inverted = bits(data, 16);
    assert(length == (~inverted & 0xffff));
    foreach (i = 0 ... length)
        out[size + i] = data[at / 8 + i];
    size += length, at += 8 * length;
}

void fixed() {
    foreach (i = 0 ... FIXLCODES)
        lengths[i] = i < 144 ? 8 : i < 256 ? 9 : i < 280 ? 7 : 8;
    construct(0, FIXLCODES, counts, symbols);
    foreach (i = 0 ... MAXDCODES)
        lengths[i] = 5;
    construct(0, MAXDCODES, distance_counts, distance_symbols);
}

// The codes that a block brings along: their lengths are themselves written in a code.
void dynamic(const uniform uint8_t data[]) {
    static const uniform int order[19] = { 16, 17, 18, 0, 8, 7, 9, 6, 10, 5, 11, 4, 12, 3, 13, 2, 14, 1, 15 };
    uniform int literals = bits(data, 5) + 257, distances = bits(data, 5) + 1, many = bits(data, 4) + 4;
    uniform int index;
    for (index = 0; index < many; index++)
        lengths[order[index]] = bits(data, 3);
    for (; index < 19; index++)
        lengths[order[index]] = 0;
    construct(0, 19, counts, symbols);
    index = 0;
    while (index < literals + distances) {
        uniform int s = decode(data, counts, symbols);
        if (s < 16) {
            lengths[index++] = s;
            continue;
        }
        uniform int value = s == 16 ? lengths[index - 1] : 0;
        uniform int times = s == 16 ? 3 + bits(data, 2) : 3 + (s - 17) * 8 + bits(data, s == 17 ? 3 : 7);
        while (times--)
            lengths[index++] = value;
    }
    construct(literals, distances, distance_counts, distance_symbols);
    construct(0, literals, counts, symbols);
}

export void inflate(uniform uint8_t data[]) {
    uniform int last;
    do {
        last = bits(data, 1);
        switch (bits(data, 2)) {
            case STORED:
                stored(data);
                break;
            case FIXED:
                fixed();
                codes(data);
                break;
            case DYNAMIC:
                dynamic(data);
                codes(data);
                break;
            default:
                assert(false);
        }
    } while (!last);
}
