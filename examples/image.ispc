// Smooths a picture by tiles of lanes: each pixel becomes the mean of itself and its neighbours, of which there are fewer at the edges.
uniform uint8 smooth[20];

export void go(uniform int height, uniform int width, uniform uint8 picture[]) {
    foreach_tiled (y = 0 ... height, x = 0 ... width) {
        int sum = 0;
        int count = 0;
        for (int row = max(y - 1, 0); row <= min(y + 1, height - 1); row++) {
            for (int column = max(x - 1, 0); column <= min(x + 1, width - 1); column++) {
                sum += picture[row * width + column];
                count++;
            }
        }
        smooth[y * width + x] = sum / count;
    }
}
