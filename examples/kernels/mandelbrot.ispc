// The Mandelbrot set, after Intel's example of this name, in fixed point with 24 fraction bits: after how many turns each point has left the
// circle of radius 2, or `most` where it has not. A lane has a point of a row; those that have left wait for the others of their round.
uniform int turns[256];

int mandel(int c_re, int c_im, int most) {
    int z_re = c_re;
    int z_im = c_im;
    int i = 0;
    for (i = 0; i < most; ++i) {
        int64 re2 = (int64)z_re * z_re >> 24;
        int64 im2 = (int64)z_im * z_im >> 24;
        if (re2 + im2 > 4 << 24)
            break;
        int new_im = (int64)z_re * z_im >> 23;
        z_re = c_re + re2 - im2;
        z_im = c_im + new_im;
    }
    return i;
}

export void mandelbrot(uniform int x0, uniform int y0, uniform int dx, uniform int dy,
                       uniform int width, uniform int height, uniform int most) {
    for (uniform int j = 0; j < height; j++) {
        foreach (i = 0 ... width) {
            int x = x0 + i * dx;
            int y = y0 + j * dy;
            int n = mandel(x, y, most);
            turns[j * width + i] = n;
        }
    }
}
