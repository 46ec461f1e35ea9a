// Exceptions: caught, passed on, cleaned up behind, thrown in the function itself, and in cold code.
extern "C" int printf(const char *, ...);

#define APART __attribute__((noinline))

volatile int sink;

struct guard {
    int n;
    explicit guard(int n) : n(n) { sink = sink + n; }
    APART ~guard() { sink = sink - n + 1; }
};
struct odd { int n; };
struct even : odd { explicit even(int n) : odd{n} {} };

APART static void may_throw(int n)
{
    if (n % 3 == 1)
        throw odd{n};
    if (n % 3 == 2)
        throw even(n);
    sink = sink + n;
}

APART static void always(int n) { throw n; }

APART int cleaned(int n)
{
    guard one(n);
    may_throw(n);
    guard two(n + 1);
    may_throw(n + 1);
    return sink;
}

APART int caught(int n)
{
    try {
        guard one(n);
        sink = sink + cleaned(n);
        always(n);
    } catch (const even &e) {
        return e.n;
    } catch (const odd &e) {
        sink = sink + e.n;
    } catch (int e) {
        sink = sink + e * 2;
    }
    return n;
}

APART int again(int n)
{
    try {
        try {
            if (n > 5)
                throw odd{n};
            may_throw(n);
        } catch (even &) {
            guard three(3);
            throw;
        }
    } catch (...) {
        return sink + 1;
    }
    return sink;
}

APART int in_a_loop(int n)
{
    int sum = 0;
    for (int i = 0; i < n; i++) {
        try {
            may_throw(i);
            sum++;
        } catch (odd &e) {
            if (e.n & 1)
                continue;
            if (e.n > 11)
                break;
        }
    }
    return sum;
}

APART static int arms(int n)
{
    guard one(n);
    switch (n) {
    case 0: may_throw(0); return 1;
    case 1: may_throw(3); return 2;
    case 2: may_throw(6); return 3;
    case 3: may_throw(1); return 4;
    case 4: may_throw(9); return 5;
    case 6: may_throw(12); return 6;
    }
    return 0;
}

int main()
{
    for (int n = 0; n < 3; n++)
        sink = sink + caught(n) + again(n + 4);
    sink = sink + in_a_loop(3);
    try {
        for (int n = 6; n >= 0; n--)
            sink = sink + arms(n);
    } catch (odd &e) {
        sink = sink + e.n;
    }
    printf("%d\n", sink);
    return 0;
}
