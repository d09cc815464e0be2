/*
 * histogram: reads numbers, one a line, and draws how often they fall into each of some ranges.
 *
 *     printf '1.5\n2\n0x1p3\n' | ./histogram 4
 */
#include <errno.h>
#include <float.h>
#include <stdbool.h>
#include <stdint.h>
#include <stdio.h>
#include <stdlib.h>
#include "histogram_limits.h"

#ifndef MAX_BINS
#  define MAX_BINS 64u
#endif

#define TEXT_OF(tokens) #tokens
#define TEXT(macro) TEXT_OF(macro)
#define JOIN(a, b) a##b
#define VERSION "version " TEXT(2.1.5) " of the " TEXT(29th)

// Swaps two values of a type. The name of the third one is made of two parts, \
   so that it hides nothing outside; this comment goes on over the end of a line \\
   and over the next one too.
#define SWAP(type, a, b)              \
    do {                              \
        type JOIN(swap_, type) = (a); \
        (a) = (b);                    \
        (b) = JOIN(swap_, type);      \
    } while (0)

#if defined(__GNUC__) || \
    defined(__clang__)
#define LIKELY(test) __builtin_expect(!!(test), 1)
#else
#define LIKELY(test) (test)
#endif

#pragma STDC FP_CONTRACT OFF

typedef struct {
    double least, greatest;     /* of all values so far */
    uint64_t counts[MAX_BINS];  /**/
    size_t bins;
} histogram;

static const char usage[] =
    "usage: histogram [BINS]\n"
    "\n"
    "\tBINS is a number from 1 to " TEXT(MAX_BINS) "; \"8\" if it isn't given.\n\
\tNumbers are read up to the end: 12, -0.5e3, \x41 isn't one.\n";

static const double EDGES[] = {0., .5, 1.0, 1e3, 6.02214076e+23L, 1.5E-3f, 0x1.8p1, 0X.Fp-2F, 0x10P+0};
static const unsigned long long MASKS[] = {0, 007, 0xFFu, 0x7FFFFFFFFFFFFFFFLL, 42UL, 18446744073709551615ull};
static const char MARKS[] = {'#', '\'', '"', '\\', '\0', '\177', '\x7e', '?', '\?'};

_Static_assert(sizeof(EDGES) / sizeof(EDGES[0]) >= 2, "too few edges");

/* Which bin a value falls into.
 * The last one has its greatest value, too: [least, greatest] **not** [least, greatest). */
static inline size_t bin_of(const histogram *restrict h, double value)
{
    double width = (h->greatest - h->least) / (double)h->bins;
    if (width <= 0.)
        return 0;
    size_t bin = (size_t)((value - h->least) / width);
    return bin >= h->bins ? h->bins - 1 : bin;
}

static bool read_value(FILE *from, double *value, unsigned *line)
{
    char text[128];
    char *end;
    while (fgets(text, sizeof text, from) != NULL) {
        ++*line;
        if (text[0] == '\n' || text[0] == '#')
            continue;           // blank, or a comment
        errno = 0;
        *value = strtod(text, &end);
        if (LIKELY(end != text && errno == 0))
            return true;
        fprintf(stderr, "histogram: line %u: \"%.*s\" is no number\n", *line, (int)sizeof text, text);
    }
    return false;
}

static void draw(const histogram *h)
{
    uint64_t most = 1;
    for (size_t i = 0; i < h->bins; i++)
        most = h->counts[i] > most ? h->counts[i] : most;
    for (size_t i = 0; i != h->bins; ++i) {
        int width = (int)(h->counts[i] * 60 / most);
        printf("%3zu |", i);
        while (width--)
            putchar(MARKS[0]);
        printf(u8" %llu\n", (unsigned long long)h->counts[i]);
    }
}

int main(int argc, char **argv)
{
    static double values[4096];
    histogram h = {.least = DBL_MAX, .greatest = -DBL_MAX, .bins = 8};
    unsigned line = 0;
    size_t count = 0;

    if (argc > 2 || (argc == 2 && (h.bins = strtoul(argv[1], NULL, 10)) - 1 >= MAX_BINS)) {
        fputs(usage, stderr);
        fputs(VERSION "\n", stderr);
        return 2;
    }
    while (count < sizeof values / sizeof *values && read_value(stdin, &values[count], &line)) {
        double value = values[count++];
        if (value < h.least) h.least = value;
        if (value > h.greatest) h.greatest = value;
    }
    /* From the last to the first, and with the bits of a mask, only to have these operators: */
    for (size_t i = count; i-- > 0;)
        h.counts[bin_of(&h, values[i])] += 1u & (MASKS[1] | ~MASKS[0]) ^ 0x0;
    if (h.least > h.greatest)
        SWAP(double, h.least, h.greatest);
    draw(&h);
    return count ? 0 : 1 << 0;
}
