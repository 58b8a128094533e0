// The Mandelbrot set, after Intel's example of this name, in fixed point with 24 fraction bits: after how many turns each point has left the
// circle of radius 2, or `most` where it has not. A lane has a point of a row; those that have left wait for the others of their round.
#define FRACTION 24
#define FOUR (4 << FRACTION)

uniform int turns[16 * 16];

static inline int mandel(int c_re, int c_im, int count) {
    int z_re = c_re, z_im = c_im;
    int i;
    for (i = 0; i < count; ++i) {
        int64_t re2 = (int64_t)z_re * z_re >> FRACTION, im2 = (int64_t)z_im * z_im >> FRACTION;
        if (re2 + im2 > FOUR)
            break;
        int new_re = re2 - im2, new_im = (int64_t)z_re * z_im >> FRACTION - 1;
        z_re = c_re + new_re;
        z_im = c_im + new_im;
    }
    return i;
}

export void mandelbrot(uniform int x0, uniform int y0, uniform int dx, uniform int dy,
                       uniform int width, uniform int height, uniform int most) {
    for (uniform int j = 0; j < height; j++) {
        foreach (i = 0 ... width) {
            int x = x0 + i * dx, y = y0 + j * dy;
            turns[j * width + i] = mandel(x, y, most);
        }
    }
}
