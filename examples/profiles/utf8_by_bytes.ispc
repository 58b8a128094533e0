// Which of several texts are UTF-8, with the texts and the results of ../kernels/utf8.ispc. A turn of the one loop takes a byte of each lane's
// text, whether a character begins there or goes on, and a lane whose text is done takes the next one at once.
uniform int wrong[16];
uniform int characters[16];

export void validate(uniform int texts, uniform int start[], uniform int length[], uniform uint8 bytes[]) {
    uniform int taken = programCount;
    int t = programIndex;
    int p = 0;              // where the byte stands in the text
    int first = 0;          // where its character begins
    int more = 0;           // how many bytes the character still has
    int low = 0x80;
    int high = 0xbf;
    int count = 0;
    while (t < texts) {
        int b = p < length[t] ? bytes[start[t] + p] : 0;
        bool goes_on = more > 0;
        int others = b < 0x80 ? 0 : b < 0xc2 ? -1 : b < 0xe0 ? 1 : b < 0xf0 ? 2 : b < 0xf5 ? 3 : -1;
        first = goes_on ? first : p;
        bool is_wrong = p < length[t] && (goes_on ? b < low || b > high : others < 0 || p + others >= length[t]);
        more = goes_on ? more - 1 : others;
        low = goes_on ? 0x80 : b == 0xe0 ? 0xa0 : b == 0xf0 ? 0x90 : 0x80;
        high = goes_on ? 0xbf : b == 0xed ? 0x9f : b == 0xf4 ? 0x8f : 0xbf;
        if (is_wrong || p >= length[t]) {
            wrong[t] = is_wrong ? first : -1;
            characters[t] = count;
            t = taken + exclusive_scan_add(1);
            taken += reduce_add(1);
            p = -1;
            more = 0;
            count = -1;
        }
        count += more == 0 ? 1 : 0;
        p++;
    }
}
