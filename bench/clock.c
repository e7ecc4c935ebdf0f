/* The clock and the table. Every row compares two ways of doing the same work within this one run. The two are timed in turn, round
 * by round, and each keeps its best round, so that a slow moment of the machine hurts neither. */
#include "bench.h"

#include <stdio.h>
#include <stdlib.h>
#include <time.h>

int rounds = 240;

static volatile uint32_t sink;
static int missed;

static double seconds(void)
{
    struct timespec t;
    clock_gettime(CLOCK_MONOTONIC, &t);
    return (double)t.tv_sec + 1e-9 * (double)t.tv_nsec;
}

static double time_of(work *w, size_t n, size_t reps)
{
    double start = seconds();
    for (size_t i = 0; i < reps; i++)
        sink = w(n);
    return (seconds() - start) / (double)reps;
}

/* How many calls make about a quarter of a millisecond. */
static size_t enough(work *w, size_t n)
{
    size_t reps = 1;
    while (time_of(w, n, reps) * (double)reps < 0.00025)
        reps *= 2;
    return reps;
}

static void keep(double *best, double t)
{
    if (t < *best)
        *best = t;
}

struct pair best(work *ours, work *theirs, size_t n)
{
    size_t a = enough(ours, n), b = enough(theirs, n);
    struct pair p = {1e9, 1e9};
    for (int k = 0; k < rounds; k++) {
        keep(&p.ours, time_of(ours, n, a));
        keep(&p.theirs, time_of(theirs, n, b));
    }
    return p;
}

static double time_of_calls(calls *c, uint32_t more)
{
    double start = seconds();
    sink = c(more);
    return seconds() - start;
}

/* How many more calls make about a millisecond more. */
static uint32_t enough_more(calls *c)
{
    double once = time_of_calls(c, 0);
    uint32_t more = 1;
    while (time_of_calls(c, more) - once < 0.001)
        more *= 2;
    return more;
}

struct pair best_of_calls(calls *ours, calls *theirs)
{
    uint32_t a = enough_more(ours), b = enough_more(theirs);
    double once[2] = {1e9, 1e9}, many[2] = {1e9, 1e9};
    for (int k = 0; k < rounds; k++) {
        keep(&once[0], time_of_calls(ours, 0));
        keep(&many[0], time_of_calls(ours, a));
        keep(&once[1], time_of_calls(theirs, 0));
        keep(&many[1], time_of_calls(theirs, b));
    }
    return (struct pair){(many[0] - once[0]) / a, (many[1] - once[1]) / b};
}

static void line(void)
{
    for (int i = 0; i < 105; i++)
        putchar('-');
    putchar('\n');
}

void head(const char *unit, const char *ratio)
{
    printf("\n%-26s %-26s %7s %9s %9s %9s %8s %4s\n", "work", "beside it", "bytes", unit, unit, ratio, "goal", "met");
    line();
}

void head_alone(void)
{
    printf("\n%-26s %-26s %7s %9s %9s %9s %8s %4s\n", "work", "", "bytes", "ns", "", "", "goal", "met");
    line();
}

/* The number as it is printed, to so many decimals, is compared with the goal. */
static void verdict(double number, int decimals, bool shown, double least, double most)
{
    char printed[32], goal[32] = "-";
    const char *met = "-";
    snprintf(printed, sizeof printed, "%.*f", decimals, number);
    double r = atof(printed);
    if (least > 0) {
        snprintf(goal, sizeof goal, ">= %.*f", decimals, least);
        met = r >= least ? "yes" : "no";
    }
    if (most > 0) {
        snprintf(goal, sizeof goal, "<= %.*f", decimals, most);
        met = r <= most ? "yes" : "no";
    }
    missed += met[0] == 'n';
    printf(" %9s %8s %4s\n", shown ? printed : "", goal, met);
}

static void number_of_bytes(size_t n)
{
    char bytes[32] = "";
    if (n > 0)
        snprintf(bytes, sizeof bytes, "%zu", n);
    printf(" %7s", bytes);
}

/* Speeds in megabytes a second, and how many times as fast the work is. */
void speed_row(const char *name, const char *beside, size_t n, struct pair p, double least)
{
    printf("%-26s %-26s", name, beside);
    number_of_bytes(n);
    printf(" %9.0f %9.0f", 1e-6 * (double)n / p.ours, 1e-6 * (double)n / p.theirs);
    verdict(p.theirs / p.ours, 2, true, least, 0);
}

/* Nanoseconds of a call, or of each of its parts, and which part of the other's time the work takes. */
void time_row(const char *name, const char *beside, size_t n, struct pair p, double parts, double most)
{
    printf("%-26s %-26s", name, beside);
    number_of_bytes(n);
    printf(" %9.2f %9.2f", 1e9 * p.ours / parts, 1e9 * p.theirs / parts);
    verdict(p.ours / p.theirs, 3, true, 0, most);
}

void alone_row(const char *name, size_t n, double time, double most)
{
    printf("%-26s %-26s", name, "");
    number_of_bytes(n);
    printf(" %9.1f %9s", 1e9 * time, "");
    verdict(1e9 * time, 0, false, 0, most);
}

void all_met(void)
{
    printf("\n%s\n", missed ? "some goals are not met" : "all goals are met");
}
