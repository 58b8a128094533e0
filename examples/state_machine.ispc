// How many characters of each line stand in comments between /* and */. Each lane reads a line of eight characters, in a state of its own.
uniform int8 text[32];
int length = 0;
int state = 0;

export void go() {
    for (uniform int at = 0; at < 8; at++) {
        int8 c = text[programIndex * 8 + at];
        switch (state) {
            case 0: // outside
                if (c == 47)
                    state = 1;
                break;
            case 1: // behind a slash
                if (c == 42)
                    state = 2;
                else if (c != 47)
                    state = 0;
                break;
            case 3: // behind a star in a comment
                if (c == 47) {
                    state = 0;
                    break;
                }
                length++;
                state = 2;
            case 2: // in a comment
                if (c == 42) {
                    state = 3;
                    continue;
                }
                length++;
                break;
            default:
                assert(false);
        }
    }
    assert(state == 0);
}
