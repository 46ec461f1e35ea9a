/* Makes up a text, counts its words in a search tree, and prints the most frequent ones.
 *
 * demo/words is this file built by clang 14 with -O2 -g -fdebug-info-for-profiling -no-pie. demo/words.txt has the
 * branch stacks of one run of it, as perf script -F ip,brstack prints them: 32 branches a sample, a sample every
 * 600,000 instructions or so. An emulator recorded them. */
#include <stdio.h>
#include <stdlib.h>
#include <string.h>

enum { LETTERS = 400000, MOST_WORDS = 200000 };

struct word {
    const char *letters;
    int length;
    int times;
    struct word *smaller, *greater;
};

static char text[LETTERS];
static struct word words[MOST_WORDS];
static int distinct;
static unsigned state = 7;

static unsigned next_random(unsigned limit)
{
    state = state * 1664525 + 1013904223;
    return (state >> 16) % limit;
}

static int is_letter(char c)
{
    return c >= 'a' && c <= 'z';
}

/* Early letters come more often than late ones, and one in five is a space. */
static void make_text(void)
{
    for (int i = 0; i < LETTERS; i++)
        text[i] = next_random(5) ? 'a' + next_random(1 + next_random(12)) : ' ';
}

/* Below 0 where the letters of A stand before those of B, 0 where they are the same, above 0 behind them. */
static int compare(const char *a, int a_length, const char *b, int b_length)
{
    for (int i = 0; i < a_length && i < b_length; i++)
        if (a[i] != b[i])
            return a[i] - b[i];
    return a_length - b_length;
}

static struct word *new_word(const char *letters, int length)
{
    struct word *word = &words[distinct++];
    word->letters = letters;
    word->length = length;
    return word;
}

/* The tree with this word in it, counted once more. */
static struct word *count_word(struct word *tree, const char *letters, int length)
{
    if (!tree)
        tree = new_word(letters, length);
    int order = compare(letters, length, tree->letters, tree->length);
    if (order < 0)
        tree->smaller = count_word(tree->smaller, letters, length);
    else if (order > 0)
        tree->greater = count_word(tree->greater, letters, length);
    else
        tree->times++;
    return tree;
}

static void count_words(void)
{
    struct word *tree = NULL;
    for (int i = 0; i < LETTERS; i++) {
        int start = i;
        while (i < LETTERS && is_letter(text[i]))
            i++;
        if (i > start)
            tree = count_word(tree, text + start, i - start);
    }
}

static int by_times(const void *a, const void *b)
{
    return ((const struct word *)b)->times - ((const struct word *)a)->times;
}

int main(void)
{
    make_text();
    count_words();
    qsort(words, distinct, sizeof *words, by_times);
    for (int i = 0; i < 5; i++)
        printf("%.*s %d\n", words[i].length, words[i].letters, words[i].times);
    return 0;
}
