// The samples of an input grow by a factor, up to a limit.
uniform int most = 100;

export void go(uniform int count, uniform int factor, uniform int a[]) {
    for (int i = programIndex; i < count; i += programCount) {
        a[i] *= factor;
        if (a[i] > most) a[i] = most;
    }
}
