#define _POSIX_C_SOURCE 199309L
#include "measure.h"

#include <stdio.h>
#include <time.h>

enum { TURNS = 41 };

static double seconds(const struct row *row, bool plain) {
    struct timespec from, to;
    if (row->prepare != NULL)
        row->prepare();
    clock_gettime(CLOCK_MONOTONIC, &from);
    for (int i = 0; i < row->times; i++)
        row->work(plain);
    clock_gettime(CLOCK_MONOTONIC, &to);
    return (double)(to.tv_sec - from.tv_sec) + (double)(to.tv_nsec - from.tv_nsec) * 1e-9;
}

int measure_against(const struct row *row, const char *other) {
    double proved = 1e9, plain = 1e9;
    for (int turn = 0; turn < TURNS; turn++) {
        double a = seconds(row, false), b = seconds(row, true);
        proved = a < proved ? a : proved;
        plain = b < plain ? b : plain;
    }
    double ratio = proved / plain;
    int over = ratio > row->limit;
    printf("%-44s %9.2f us   %s %9.2f us   ratio %5.2f   limit %.2f%s\n", row->what, proved / row->times * 1e6, other,
           plain / row->times * 1e6, ratio, row->limit, over ? "   EXCEEDED" : "");
    fflush(stdout);
    return over;
}

int measure(const struct row *rows, size_t count) {
    int over = 0;
    for (size_t i = 0; i < count; i++)
        over += measure_against(&rows[i], "plain C");
    return over;
}

int measure_differs(const char *what) {
    printf("%s: the proved code and plain C differ\n", what);
    return 1;
}
