// Inflate (RFC 1951): what a raw deflate stream stands for, decoded code by code as in `puff` of zlib. The bits of a stream tell where the next
// ones begin, so the gang reads them together, and everything but the copies is uniform: lanes copy the bytes of a match and of a stored
// block. A match that is longer than its distance repeats its first bytes. The tables of RFC 1951, 3.2.5 and 3.2.7, come from the input.
uniform uint8 out[1024];
uniform int size = 0;
uniform int at = 0;             // the bit of the stream that comes next
uniform int length_base[29];
uniform int length_extra[29];
uniform int distance_base[30];
uniform int distance_extra[30];
uniform int order[19];
uniform int lengths[320];       // of the codes of a block, in bits
uniform int offsets[16];
uniform int counts[16];         // how many codes of each length there are, and their symbols in order: of literals and lengths
uniform int symbols[320];
uniform int distance_counts[16];
uniform int distance_symbols[32];

uniform int bits(const uniform uint8 data[], uniform int n) {
    uniform int v = 0;
    for (uniform int i = 0; i < n; i++) {
        v |= (data[at >> 3] >> (at & 7) & 1) << i;
        at++;
    }
    return v;
}

// The canonical code whose lengths are the n from `first` on.
void construct(uniform int first, uniform int n, uniform int count[], uniform int symbol[]) {
    foreach (i = 0 ... 16)
        count[i] = 0;
    for (uniform int i = 0; i < n; i++)
        count[lengths[first + i]]++;
    offsets[1] = 0;
    for (uniform int l = 1; l < 15; l++)
        offsets[l + 1] = offsets[l] + count[l];
    for (uniform int i = 0; i < n; i++) {
        uniform int l = lengths[first + i];
        if (l != 0) {
            symbol[offsets[l]] = i;
            offsets[l]++;
        }
    }
}

uniform int decode(const uniform uint8 data[], const uniform int count[], const uniform int symbol[]) {
    uniform int code = 0;
    uniform int first = 0;
    uniform int index = 0;
    for (uniform int l = 1; l <= 15; l++) {
        code |= data[at >> 3] >> (at & 7) & 1;
        at++;
        if (code - count[l] < first) return symbol[index + code - first];
        index += count[l];
        first = (first + count[l]) << 1;
        code <<= 1;
    }
    assert(false);
    return -1;
}

void codes(const uniform uint8 data[]) {
    while (true) {
        uniform int s = decode(data, counts, symbols);
        if (s == 256) return;
        if (s < 256) {
            out[size] = s;
            size++;
            continue;
        }
        uniform int length = bits(data, length_extra[s - 257]);
        length += length_base[s - 257];
        uniform int d = decode(data, distance_counts, distance_symbols);
        uniform int distance = bits(data, distance_extra[d]);
        distance += distance_base[d];
        assert(distance <= size);
        foreach (i = 0 ... length)
            out[size + i] = out[size - distance + i % distance];
        size += length;
    }
}

void stored(const uniform uint8 data[]) {
    at = (at + 7) / 8 * 8;
    uniform int length = bits(data, 16);
    uniform int inverted = bits(data, 16);
    assert(length == (~inverted & 0xffff));
    foreach (i = 0 ... length)
        out[size + i] = data[at / 8 + i];
    size += length;
    at += 8 * length;
}

void fixed() {
    foreach (i = 0 ... 288)
        lengths[i] = i < 144 ? 8 : i < 256 ? 9 : i < 280 ? 7 : 8;
    construct(0, 288, counts, symbols);
    foreach (i = 0 ... 30)
        lengths[i] = 5;
    construct(0, 30, distance_counts, distance_symbols);
}

// The codes that a block brings along: their lengths are themselves written in a code.
void dynamic(const uniform uint8 data[]) {
    uniform int literals = bits(data, 5);
    uniform int distances = bits(data, 5);
    uniform int many = bits(data, 4);
    literals += 257;
    distances += 1;
    many += 4;
    foreach (i = 0 ... 19)
        lengths[i] = 0;
    for (uniform int i = 0; i < many; i++) {
        uniform int l = bits(data, 3);
        lengths[order[i]] = l;
    }
    construct(0, 19, counts, symbols);
    uniform int index = 0;
    while (index < literals + distances) {
        uniform int s = decode(data, counts, symbols);
        if (s < 16) {
            lengths[index] = s;
            index++;
            continue;
        }
        uniform int value = s == 16 ? lengths[index - 1] : 0;
        uniform int times = bits(data, s == 16 ? 2 : s == 17 ? 3 : 7);
        times += s == 18 ? 11 : 3;
        foreach (i = 0 ... times)
            lengths[index + i] = value;
        index += times;
    }
    construct(literals, distances, distance_counts, distance_symbols);
    construct(0, literals, counts, symbols);
}

export void inflate(uniform uint8 data[]) {
    uniform int last = 0;
    while (!last) {
        last = bits(data, 1);
        uniform int kind = bits(data, 2);
        switch (kind) {
            case 0:
                stored(data);
                break;
            case 1:
                fixed();
                codes(data);
                break;
            case 2:
                dynamic(data);
                codes(data);
                break;
            default:
                assert(false);
        }
    }
}
