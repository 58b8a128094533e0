uniform uint8 gain = 3;
uniform int16 sum;

export void go() {
    uint8 pixel = 40 + 20 * programIndex;
    uint8 bright = pixel * gain;
    bool wrapped = bright < pixel;
    int16 middle;
    {
        int16 whole = (int16)pixel + bright;
        middle = whole / 2;
    }
    bright = wrapped ? 255 : bright;
    sum += gain;
}
