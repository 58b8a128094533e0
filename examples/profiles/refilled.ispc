// The Mandelbrot set, with the points and the results of ../kernels/mandelbrot.ispc. A lane whose point is done takes the next one at once, so it
// does not wait for the others of a round.
uniform int turns[256];

export void mandelbrot(uniform int x0, uniform int y0, uniform int dx, uniform int dy,
                       uniform int width, uniform int height, uniform int most) {
    uniform int count = width * height;
    uniform int taken = programCount;
    int point = programIndex;
    int c_re = x0 + point % width * dx;
    int c_im = y0 + point / width * dy;
    int z_re = c_re;
    int z_im = c_im;
    int i = 0;
    while (point < count) {
        int64 re2 = (int64)z_re * z_re >> 24;
        int64 im2 = (int64)z_im * z_im >> 24;
        if (i < most && re2 + im2 <= 4 << 24) {
            int new_im = (int64)z_re * z_im >> 23;
            z_re = c_re + re2 - im2;
            z_im = c_im + new_im;
            i++;
        } else {
            turns[point] = i;
            point = taken + exclusive_scan_add(1);
            taken += reduce_add(1);
            c_re = x0 + point % width * dx;
            c_im = y0 + point / width * dy;
            z_re = c_re;
            z_im = c_im;
            i = 0;
        }
    }
}
