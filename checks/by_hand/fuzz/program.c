/* A program whose functions are inlined into one another, for the fuzzer: calls, ranges and discriminators. */
static int squares(int n) {
    int sum = 0;
    for (int i = 0; i < n; i++)
        sum += i * i;
    return sum;
}

static inline int more(int n) {
    return n > 3 ? squares(n) : n + 1;
}

__attribute__((cold, noinline)) static int seldom(int n) {
    return n - 7;
}

int work(int n) {
    if (n == 12345)
        return seldom(n) + more(n);
    return more(n) + more(n + 1);
}

void _start(void) {
    static volatile int out;
    for (int i = 0; i < 10; i++)
        out = work(out);
}
