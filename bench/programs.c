/* Two programs on one input, each run several times in turn: the best wall time, and the most memory.
 *
 *   programs ROUNDS INPUT NAME BESIDE PROGRAM [WORD]..
 *
 * NAME is the program to measure, run with no words; PROGRAM and its words stand beside it, and BESIDE is how they are printed. Standard
 * input is the file, standard output is thrown away. */
#define _DEFAULT_SOURCE
#include <fcntl.h>
#include <stdio.h>
#include <stdlib.h>
#include <sys/resource.h>
#include <sys/stat.h>
#include <sys/wait.h>
#include <time.h>
#include <unistd.h>

struct run {
    double seconds;
    long kilobytes;
};

static double seconds(void)
{
    struct timespec t;
    clock_gettime(CLOCK_MONOTONIC, &t);
    return (double)t.tv_sec + 1e-9 * (double)t.tv_nsec;
}

static void become(char **words, const char *input)
{
    int in = open(input, O_RDONLY), out = open("/dev/null", O_WRONLY);
    if (in < 0 || out < 0 || dup2(in, 0) < 0 || dup2(out, 1) < 0)
        _exit(127);
    execvp(words[0], words);
    _exit(127);
}

static struct run once(char **words, const char *input)
{
    struct rusage usage;
    int status = 0;
    double start = seconds();
    pid_t child = fork();
    if (child == 0)
        become(words, input);
    if (child < 0 || wait4(child, &status, 0, &usage) != child || status != 0) {
        printf("%s did not run\n", words[0]);
        exit(1);
    }
    return (struct run){seconds() - start, usage.ru_maxrss};
}

static void keep(struct run *best, struct run r)
{
    if (r.seconds < best->seconds)
        best->seconds = r.seconds;
    if (r.kilobytes > best->kilobytes)
        best->kilobytes = r.kilobytes;
}

int main(int count, char **words)
{
    if (count < 6)
        return 1;
    int rounds = atoi(words[1]);
    const char *input = words[2];
    char *ours[] = {words[3], NULL};
    struct run a = {1e9, 0}, b = {1e9, 0};
    for (int k = 0; k < rounds; k++) {
        keep(&a, once(ours, input));
        keep(&b, once(words + 5, input));
    }
    struct stat file;
    if (stat(input, &file) != 0)
        return 1;
    printf("%-26s %-26s %7ld %9.1f %9.1f %9.3f %8s %4s\n", "line, short lines", words[4], (long)file.st_size, 1e3 * a.seconds, 1e3 * b.seconds,
        a.seconds / b.seconds, "-", "-");
    printf("%-26s %-26s %7s %9.1f %9.1f\n", "  most memory, MB", "", "", 1e-3 * (double)a.kilobytes, 1e-3 * (double)b.kilobytes);
    return 0;
}
