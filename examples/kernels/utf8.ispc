// Which of several texts are UTF-8 (RFC 3629)? They stand in `bytes` one behind the other, and a lane has a text. Of each is found where its
// first wrong character begins, or -1, and how many characters stand before that. A lane that is done waits for the others.
uniform int wrong[16];
uniform int characters[16];

export void validate(uniform int texts, uniform int start[], uniform int length[], uniform uint8 bytes[]) {
    foreach (t = 0 ... texts) {
        int p = 0;
        int count = 0;
        int found = -1;
        while (p < length[t]) {
            int b = bytes[start[t] + p];
            int more = b < 0x80 ? 0 : b < 0xc2 ? -1 : b < 0xe0 ? 1 : b < 0xf0 ? 2 : b < 0xf5 ? 3 : -1;
            if (more < 0 || p + more >= length[t]) {
                found = p;
                break;
            }
            // Behind some first bytes the second has narrower bounds: no longer form than is needed, no surrogate, nothing past U+10FFFF.
            int low = b == 0xe0 ? 0xa0 : b == 0xf0 ? 0x90 : 0x80;
            int high = b == 0xed ? 0x9f : b == 0xf4 ? 0x8f : 0xbf;
            for (int k = 1; k <= more; k++) {
                int next = bytes[start[t] + p + k];
                if (next < low || next > high) {
                    found = p;
                    break;
                }
                low = 0x80;
                high = 0xbf;
            }
            if (found >= 0) break;
            count++;
            p += more + 1;
        }
        wrong[t] = found;
        characters[t] = count;
    }
}
