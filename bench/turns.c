/* Runs two commands in turn, N times each, and prints the median of the processor time of each in seconds, the median of
 * the N ratios of the second's time to the first's, and the peak memory of each in kB.
 *
 *   turns N COMMAND.. -- COMMAND..
 */
#include <fcntl.h>
#include <stdio.h>
#include <stdlib.h>
#include <string.h>
#include <sys/resource.h>
#include <sys/wait.h>
#include <unistd.h>

static double seconds(struct timeval t) { return (double)t.tv_sec + 1e-6 * (double)t.tv_usec; }

/* The processor time of one run; its peak memory raises *peak. */
static double run(char **command, long *peak) {
    pid_t child = fork();
    if (child < 0) {
        perror("fork");
        exit(1);
    }
    if (child == 0) {
        int null = open("/dev/null", O_WRONLY);
        dup2(null, 1);
        execvp(command[0], command);
        perror(command[0]);
        _exit(127);
    }
    int status;
    struct rusage used;
    if (wait4(child, &status, 0, &used) < 0 || !WIFEXITED(status) || WEXITSTATUS(status) == 127) exit(1);
    if (used.ru_maxrss > *peak) *peak = used.ru_maxrss;
    return seconds(used.ru_utime) + seconds(used.ru_stime);
}

static int by_size(const void *a, const void *b) {
    double x = *(const double *)a, y = *(const double *)b;
    return (x > y) - (x < y);
}

static double median(double *times, int n) {
    qsort(times, (size_t)n, sizeof *times, by_size);
    return n % 2 ? times[n / 2] : (times[n / 2 - 1] + times[n / 2]) / 2;
}

int main(int argc, char **argv) {
    int n = argc > 1 ? atoi(argv[1]) : 0, end = 2;
    while (end < argc && strcmp(argv[end], "--")) end++;
    if (n < 1 || end == 2 || end + 1 >= argc) {
        fprintf(stderr, "usage: turns N COMMAND.. -- COMMAND..\n");
        return 2;
    }
    argv[end] = NULL;
    double *first = malloc((size_t)n * sizeof(double)), *second = malloc((size_t)n * sizeof(double));
    double *ratios = malloc((size_t)n * sizeof(double));
    long first_peak = 0, second_peak = 0;
    for (int i = 0; i < n; i++) {
        first[i] = run(argv + 2, &first_peak);
        second[i] = run(argv + end + 1, &second_peak);
        ratios[i] = second[i] / (first[i] > 0 ? first[i] : 1e-6);
    }
    printf("%.6f %.6f %.3f %ld %ld\n", median(first, n), median(second, n), median(ratios, n), first_peak, second_peak);
    return 0;
}
