/* A small interpreter, as branchy code to measure: it compiles a script to the code of a stack machine, and runs that.
 *
 *   interp SCRIPT
 *
 * Numbers are of 64 bits, variables are those of the function, m[k] is one memory that all share:
 *   fn fib(n) { if (n < 2) { return n; } return fib(n - 1) + fib(n - 2); }
 *   fn main() { print fib(20); i = 0; while (i < 9) { m[i] = i * i; i = i + 1; } return m[8]; }
 */
#include <ctype.h>
#include <stdint.h>
#include <stdio.h>
#include <stdlib.h>
#include <string.h>

enum { CODE = 1 << 16, STACK = 1 << 16, MEMORY = 1 << 16, NAMES = 256, LENGTH = 32 };
enum op { PUSH, LOAD, STORE, READ, WRITE, ADD, SUB, MUL, DIV, MOD, LT, LE, EQ, NE, AND, OR, XOR, NOT, NEG, JUMP, UNLESS, CALL, RETURN, PRINT, DROP };

struct function { char name[LENGTH]; int64_t at, words, locals; };

static char *source, word[LENGTH];
static int64_t number, code[CODE], stack[STACK], memory[MEMORY];
static int size, kind;
static struct function functions[NAMES];
static int known;
static char locals[NAMES][LENGTH];
static int64_t here;

static void fail(const char *what)
{
    fprintf(stderr, "interp: %s at: %.20s\n", what, source);
    exit(1);
}

/* The next token: its kind is 'a' of a name, '0' of a number, a pair's sum of two characters, or the character itself. */
static void next(void)
{
    while (isspace((unsigned char)*source))
        source++;
    if (isalpha((unsigned char)*source)) {
        int n = 0;
        while (isalnum((unsigned char)*source) && n < LENGTH - 1)
            word[n++] = *source++;
        word[n] = 0;
        kind = 'a';
    } else if (isdigit((unsigned char)*source)) {
        number = 0;
        while (isdigit((unsigned char)*source))
            number = number * 10 + (*source++ - '0');
        kind = '0';
    } else {
        kind = *source;
        if (kind)
            source++;
        if (*source == '=' && strchr("<=!", kind))
            kind += *source++ << 8;
    }
}

static int is(const char *name)
{
    return kind == 'a' && strcmp(word, name) == 0;
}

static void expect(int wanted)
{
    if (kind != wanted)
        fail("another sign expected");
    next();
}

static int emit(enum op op, int64_t value)
{
    if (size + 2 > CODE)
        fail("too much code");
    code[size++] = op;
    code[size++] = value;
    return size - 1;
}

static int64_t local(const char *name)
{
    for (int64_t k = 0; k < here; k++)
        if (strcmp(locals[k], name) == 0)
            return k;
    if (here == NAMES)
        fail("too many names");
    strcpy(locals[here], name);
    return here++;
}

static int64_t function(const char *name)
{
    for (int k = 0; k < known; k++)
        if (strcmp(functions[k].name, name) == 0)
            return k;
    if (known == NAMES)
        fail("too many functions");
    strcpy(functions[known].name, name);
    functions[known].at = -1;
    return known++;
}

static void expression(int least);

static void call(const char *name)
{
    int64_t to = function(name);
    int n = 0;
    next();
    while (kind != ')') {
        expression(0);
        n++;
        if (kind == ',')
            next();
    }
    next();
    emit(PUSH, n);
    emit(CALL, to);
}

static void operand(void)
{
    if (kind == '0') {
        emit(PUSH, number);
        next();
    } else if (kind == '(') {
        next();
        expression(0);
        expect(')');
    } else if (kind == '!' || kind == '-') {
        int sign = kind;
        next();
        operand();
        emit(sign == '!' ? NOT : NEG, 0);
    } else if (kind == 'a') {
        char name[LENGTH];
        strcpy(name, word);
        next();
        if (kind == '(') {
            call(name);
        } else if (kind == '[') {
            next();
            expression(0);
            expect(']');
            emit(READ, 0);
        } else {
            emit(LOAD, local(name));
        }
    } else {
        fail("a value expected");
    }
}

/* How tightly a sign binds, from 1 on, and its operation; 0 of what is none. */
static int strength(enum op *op)
{
    switch (kind) {
    case '|': *op = OR; return 1;
    case '^': *op = XOR; return 1;
    case '&': *op = AND; return 1;
    case '=' + ('=' << 8): *op = EQ; return 2;
    case '!' + ('=' << 8): *op = NE; return 2;
    case '<' + ('=' << 8): *op = LE; return 3;
    case '<': *op = LT; return 3;
    case '+': *op = ADD; return 4;
    case '-': *op = SUB; return 4;
    case '*': *op = MUL; return 5;
    case '/': *op = DIV; return 5;
    case '%': *op = MOD; return 5;
    default: return 0;
    }
}

static void expression(int least)
{
    enum op op = ADD;
    operand();
    for (int binds = strength(&op); binds > least; binds = strength(&op)) {
        enum op now = op;
        next();
        expression(binds);
        emit(now, 0);
    }
}

static void body(void);

static void statement(void)
{
    if (is("if")) {
        next();
        expression(0);
        int past = emit(UNLESS, 0);
        body();
        if (is("else")) {
            int end = emit(JUMP, 0);
            code[past] = size;
            next();
            body();
            code[end] = size;
        } else {
            code[past] = size;
        }
    } else if (is("while")) {
        int top = size;
        next();
        expression(0);
        int past = emit(UNLESS, 0);
        body();
        emit(JUMP, top);
        code[past] = size;
    } else if (is("return") || is("print")) {
        enum op op = is("return") ? RETURN : PRINT;
        next();
        expression(0);
        emit(op, 0);
        expect(';');
    } else if (kind == 'a') {
        char name[LENGTH];
        strcpy(name, word);
        next();
        if (kind == '=') {
            next();
            expression(0);
            emit(STORE, local(name));
        } else if (kind == '[') {
            next();
            expression(0);
            expect(']');
            expect('=');
            expression(0);
            emit(WRITE, 0);
        } else {
            call(name);
            emit(DROP, 0);
        }
        expect(';');
    } else {
        fail("a statement expected");
    }
}

static void body(void)
{
    expect('{');
    while (kind != '}')
        statement();
    next();
}

static void definition(void)
{
    next();
    struct function *it = &functions[function(word)];
    next();
    expect('(');
    here = 0;
    while (kind == 'a') {
        local(word);
        next();
        if (kind == ',')
            next();
    }
    expect(')');
    it->words = here;
    it->at = size;
    body();
    emit(PUSH, 0);
    emit(RETURN, 0);
    it->locals = here;
}

static int64_t run(void)
{
    int64_t at = functions[function("main")].at, base = 2, top = 2 + functions[function("main")].locals;
    stack[0] = -1;
    for (;;) {
        int64_t value = code[at + 1], *s = stack + top;
        enum op op = (enum op)code[at];
        at += 2;
        if (top > STACK - NAMES - 4)
            fail("too deep");
        switch (op) {
        case PUSH: s[0] = value; top++; break;
        case LOAD: s[0] = stack[base + value]; top++; break;
        case STORE: stack[base + value] = s[-1]; top--; break;
        case READ: s[-1] = memory[s[-1] & (MEMORY - 1)]; break;
        case WRITE: memory[s[-2] & (MEMORY - 1)] = s[-1]; top -= 2; break;
        case ADD: s[-2] += s[-1]; top--; break;
        case SUB: s[-2] -= s[-1]; top--; break;
        case MUL: s[-2] *= s[-1]; top--; break;
        case DIV:
            if (s[-1] == 0)
                fail("a division by 0");
            s[-2] /= s[-1];
            top--;
            break;
        case MOD:
            if (s[-1] == 0)
                fail("a division by 0");
            s[-2] %= s[-1];
            top--;
            break;
        case LT: s[-2] = s[-2] < s[-1]; top--; break;
        case LE: s[-2] = s[-2] <= s[-1]; top--; break;
        case EQ: s[-2] = s[-2] == s[-1]; top--; break;
        case NE: s[-2] = s[-2] != s[-1]; top--; break;
        case AND: s[-2] &= s[-1]; top--; break;
        case OR: s[-2] |= s[-1]; top--; break;
        case XOR: s[-2] ^= s[-1]; top--; break;
        case NOT: s[-1] = !s[-1]; break;
        case NEG: s[-1] = -s[-1]; break;
        case JUMP: at = value; break;
        case UNLESS:
            top--;
            if (!s[-1])
                at = value;
            break;
        case CALL: {
            struct function *it = &functions[value];
            int64_t n = s[-1], first = top - 1 - n;
            if (it->at < 0 || n != it->words)
                fail("a call of another form");
            memmove(stack + first + 2, stack + first, (size_t)n * sizeof *stack);
            stack[first] = at;
            stack[first + 1] = base;
            base = first + 2;
            top = base + it->locals;
            at = it->at;
            for (int64_t k = n; k < it->locals; k++)
                stack[base + k] = 0;
            break;
        }
        case RETURN: {
            int64_t result = s[-1];
            top = base - 2;
            at = stack[top];
            base = stack[top + 1];
            if (at < 0)
                return result;
            stack[top++] = result;
            break;
        }
        case PRINT: printf("%lld\n", (long long)s[-1]); top--; break;
        case DROP: top--; break;
        }
    }
}

int main(int n, char **words)
{
    static char text[1 << 16];
    FILE *file = n == 2 ? fopen(words[1], "r") : NULL;
    if (!file)
        return 2;
    text[fread(text, 1, sizeof text - 1, file)] = 0;
    source = text;
    next();
    while (is("fn"))
        definition();
    if (kind)
        fail("a function expected");
    printf("%lld\n", (long long)run());
    return 0;
}
