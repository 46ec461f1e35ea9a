/* What compilers make of switches, labels as values, calls that never return, tail calls, loops without an end, and cold
 * code. Every way is run, but for those behind which the program would not go on. */
#include <setjmp.h>
#include <stdint.h>
#include <stdio.h>
#include <stdlib.h>
#include <string.h>

#define APART __attribute__((noinline, noclone))

volatile int sink, never_so;
int (*volatile by_pointer)(int);

APART static void say(int n) { sink += n; }

APART int dense(int n)
{
    switch (n) {
    case 0: say(3); return 10;
    case 1: say(5); return 11;
    case 2: say(7); break;
    case 3: say(11); return 13;
    case 4: say(13); /* falls through */
    case 5: say(17); return 15;
    case 7: say(19); return 17;
    case 9: say(23); return 19;
    default: return -1;
    }
    return sink;
}

/* No value is left over: the compiler leaves the comparison out, and may fill holes with anything. */
APART int whole(unsigned n)
{
    switch (n & 7) {
    case 0: say(1); return 1;
    case 1: say(2); return 5;
    case 2: say(4); return 2;
    case 3: say(8); return 9;
    case 4: say(16); return 4;
    case 5: say(32); return 3;
    case 6: say(64); return 7;
    case 7: say(128); return 8;
    }
    __builtin_unreachable();
}

APART int holes(unsigned n)
{
    switch (n) {
    case 1: say(1); return 21;
    case 2: say(2); return 25;
    case 4: say(4); return 22;
    case 5: say(8); return 29;
    case 7: say(16); return 24;
    case 8: say(32); return 23;
    }
    __builtin_unreachable();
}

/* Two tables one behind the other, one of them inside of the other's case. */
APART int nested(int a, int b)
{
    switch (a) {
    case 10: say(a); return 1;
    case 11: say(2 * a); return 2;
    case 12:
        switch (b) {
        case 'a': say(b); return 3;
        case 'b': say(b + 1); return 4;
        case 'c': say(b * 2); return 5;
        case 'd': say(b * 3); return 6;
        case 'e': say(b * 5); return 7;
        case 'g': say(b * 7); return 8;
        }
        return 9;
    case 13: say(5 * a); return 10;
    case 14: say(7 * a); return 11;
    case 16: say(9 * a); return 12;
    }
    return 13;
}

/* An interpreter whose table is needed in every arm, with more values than there are registers. */
APART int interpret(const unsigned char *code, int *box)
{
    static const void *const labels[] = {&&halt, &&push, &&add, &&twice, &&swap, &&jump, &&call, &&less};
    int a = 0, b = 1, c = 2, d = 3, e = 4, f = 5, g = 6, h = 7, steps = 0;
    const unsigned char *at = code;
#define NEXT do { steps++; goto *labels[*at++]; } while (0)
    NEXT;
push: a = *at++; say(a); b += c; NEXT;
add: a += b; c ^= d; d += e; NEXT;
twice: a *= 2; e += f; f ^= g; box[1] = a; NEXT;
swap: { int t = a; a = b; b = t; g += h; } NEXT;
jump: at += (signed char)*at; h += steps; NEXT;
call: box[0] = dense(a & 7); a += box[0]; NEXT;
less: if (a < *at++) at++; NEXT;
halt: return a + b + c + d + e + f + g + h + steps;
}

/* Labels by their distances, in 4 bytes each. */
APART int distances(const unsigned char *code)
{
    static const int32_t labels[] = {&&halt - &&halt, &&one - &&halt, &&two - &&halt, &&three - &&halt};
    int sum = 0;
    goto *(&&halt + labels[*code++]);
one: sum += 1; say(sum); goto *(&&halt + labels[*code++]);
two: sum += 20; say(sum); goto *(&&halt + labels[*code++]);
three: sum *= 3; goto *(&&halt + labels[*code++]);
halt: return sum;
}

APART static void leave(int n)
{
    printf("%d\n", n);
    exit(n);
}

APART static void leave_by_way(int n)
{
    if (n & 1)
        leave(n);
    leave_by_way(n + 1);
    say(n);
}

APART int guarded(int n)
{
    if (n > 100)
        leave_by_way(n);
    if (n < -100)
        abort();
    return n + 1;
}

__attribute__((cold, noinline)) static void complain(const char *text, int n)
{
    say(n + (int)strlen(text));
}

APART int with_cold(int n)
{
    int sum = 0;
    for (int i = 0; i < n; i++) {
        if (__builtin_expect(i % 7 == 6, 0)) {
            complain("seven", i);
            if (sum & 1)
                sum += sink & 3;
            complain("odd", sum);
        }
        sum += i;
    }
    return sum;
}

APART int tail(int n) { return n > 3 ? by_pointer(n - 1) : guarded(n); }

APART int (*const table_of_functions[])(int) = {dense, guarded, with_cold, tail};
APART int by_table(int k, int n) { return table_of_functions[k & 3](n); }

APART int recursive(int n) { return n < 2 ? n : recursive(n - 1) + recursive(n - 2); }

/* Serves for ever, but for a call that ends the program in the middle of it. */
APART void serve(int n)
{
    for (;;) {
        say(n);
        if (sink % 5 == 3)
            say(1);
        if (n++ > 50)
            by_pointer(n);
    }
}

APART static int stop(int n)
{
    puts("end");
    exit(sink == -1);
}

static jmp_buf back;

APART int long_way(int n)
{
    if (setjmp(back))
        return n + 1;
    if (n > 2)
        longjmp(back, 1);
    return n;
}

int main(int words, char **word)
{
    static const unsigned char code[] = {1, 200, 2, 3, 4, 6, 7, 100, 5, 1, 5, 1, 7, 1, 1, 2, 3, 0, 0};
    static const unsigned char steps[] = {1, 2, 3, 1, 3, 0};
    int box[2] = {0};
    for (int n = -1; n < 12; n++)
        sink += dense(n);
    for (unsigned n = 0; n < 30; n++)
        sink += whole(n);
    for (unsigned n = 1; n < 9; n++)
        if (n != 3 && n != 6)
            sink += holes(n);
    for (int a = 9; a < 18; a++)
        for (int b = 'a' - 1; b < 'i'; b++)
            sink += nested(a, b);
    by_pointer = tail;
    for (int n = 0; n < 20; n++)
        sink += interpret(code, box) + distances(steps) + guarded(n) + with_cold(n) + tail(n) + by_table(n, n) + long_way(n);
    sink += recursive(10);
    if (words > 100)
        guarded(words);
    by_pointer = stop;
    serve(1);
}
