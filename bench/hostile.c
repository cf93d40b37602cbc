/* Writes certificates that are made to be slow to check, with the text of hard clauses that they stand over.
 *
 *   hostile KIND N TEXT PROOF
 *
 * The kinds are told at the functions. Each certificate takes a number of steps that grows with N as N does.
 */
#include <stdio.h>
#include <stdlib.h>
#include <string.h>

static FILE *text, *proof;
static unsigned long long state = 88172645463325252ull;

static unsigned long below(unsigned long limit) {
    state ^= state << 13;
    state ^= state >> 7;
    state ^= state << 17;
    return (unsigned long)((state >> 11) % limit);
}

static FILE *create(const char *path) {
    FILE *f = fopen(path, "w");
    if (!f) {
        perror(path);
        exit(1);
    }
    setvbuf(f, NULL, _IOFBF, 1 << 20);
    return f;
}

/* Clause 1 is '1 2', clause 2 is '-1', clause 3 is '-2'; the others have variables from 10 on. */
static void base(void) {
    fprintf(text, "h 1 2 0\nh -1 0\nh -2 0\n");
}

static long many(long count) {
    base();
    for (long i = 0; i < count; i++) fprintf(text, "h %ld %ld -%ld 0\n", 10 + i, 11 + i, 12 + i);
    return count + 3;
}

static void ended(long id) { fprintf(proof, "%ld 0 2 3 1 0\n", id); }

/* N additions whose ids are all multiples of a power of two; each hint names one of them. */
static void ids(long n, int power) {
    base();
    fprintf(proof, "%ld 1 2 0 1 0\n", 1l << power);
    for (long k = 2; k <= n; k++) fprintf(proof, "%ld 1 2 0 %ld 0\n", k << power, (1 + (long)below((unsigned long)(k - 1))) << power);
    ended((n + 1) << power);
}

/* N times one of some names is defined and deleted again, among 4 N live clauses. */
static void names(long n, long count) {
    long id = many(4 * n), top = 4 * n + 100;
    for (long k = 0; k < n; k++) {
        long z = top + k % count, a = 10 + (long)below((unsigned long)n), b = a + 1;
        fprintf(proof, "%ld -%ld %ld %ld 0 0\n", id + 1, z, a, b);
        fprintf(proof, "%ld %ld -%ld 0 -%ld 0\n", id + 2, z, a, id + 1);
        fprintf(proof, "%ld %ld -%ld 0 -%ld 0\n", id + 3, z, b, id + 1);
        fprintf(proof, "%ld d %ld %ld %ld 0\n", id + 3, id + 1, id + 2, id + 3);
        id += 3;
    }
    ended(id + 1);
}

/* N live clauses on one variable, and N RAT lines on another whose number has the same low bits. */
static void rows(long n) {
    base();
    long p = 10, q = p + (1l << 22), id = 3;
    for (long k = 0; k < n; k++) fprintf(proof, "%ld %ld %ld 0 0\n", ++id, q, 100 + k);
    for (long k = 0; k < n; k++) fprintf(proof, "%ld %ld %ld 0 0\n", ++id, -p, 100 + k);
    ended(id + 1);
}

/* N clauses are added and then deleted: in rising, falling or mixed order. */
static void churn(long n, char order) {
    base();
    long *left = malloc(sizeof(long) * (size_t)n);
    for (long k = 0; k < n; k++) {
        fprintf(proof, "%ld 1 2 %ld 0 1 0\n", 4 + k, 10 + k % 1000);
        left[k] = 4 + k;
    }
    if (order == 'm')
        for (long k = n - 1; k > 0; k--) {
            long j = (long)below((unsigned long)(k + 1)), t = left[k];
            left[k] = left[j];
            left[j] = t;
        }
    for (long k = 0; k < n; k++) fprintf(proof, "%ld d %ld 0\n", 3 + n, left[order == 'f' ? n - 1 - k : k]);
    ended(4 + n);
    free(left);
}

/* A clause of 100,000 literals that N lines name as their candidate; it is true at its last literal. */
static void candidate(long n) {
    const long length = 100000;
    base();
    fprintf(text, "h -10");
    for (long i = 1; i < length; i++) fprintf(text, " %ld", 10 + i);
    fprintf(text, " 0\n");
    for (long k = 0; k < n; k++) fprintf(proof, "%ld 10 -%ld %ld 0 -4 0\n", 5 + k, 9 + length, length + 100 + k);
    ended(5 + n);
}

/* A clause of N literals that N lines name as their candidate. It is true at one literal of it: the last one, or, where
 * the lines take turns, each in turn the last one and the one in the middle, or any. */
static void satisfied(long n, char which) {
    base();
    fprintf(text, "h -10");
    for (long i = 1; i < n; i++) fprintf(text, " %ld", 10 + i);
    fprintf(text, " 0\n");
    for (long k = 0; k < n; k++) {
        long at = which == 'a' ? 1 + (long)below((unsigned long)(n - 1)) : which == 't' && k % 2 ? n / 2 : n - 1;
        fprintf(proof, "%ld 10 -%ld %ld 0 -4 0\n", 5 + k, 10 + at, n + 100 + k % 1000);
    }
    ended(5 + n);
}

/* The same, of two clauses of N / 2 literals in turn, on two variables. */
static void alternating(long n) {
    base();
    for (long c = 0; c < 2; c++) {
        fprintf(text, "h -%ld", 10 + c);
        for (long i = 2; i < n / 2; i++) fprintf(text, " %ld", 10 + i);
        fprintf(text, " 0\n");
    }
    for (long k = 0; k < n; k++) fprintf(proof, "%ld %ld -%ld %ld 0 -%ld 0\n", 6 + k, 10 + k % 2, 9 + n / 2, n + 100 + k % 1000, 4 + k % 2);
    ended(6 + n);
}

/* One line of N bytes that has no end: blanks, or digits of one number. */
static void line(long n, char byte) {
    base();
    for (long k = 0; k < n; k++) putc(byte, proof);
}

/* A chain of N clauses, and one line with no line feed that names them all. */
static void hints(long n) {
    fprintf(text, "h 1 0\n");
    for (long k = 1; k < n - 1; k++) fprintf(text, "h -%ld %ld 0\n", k, k + 1);
    fprintf(text, "h -%ld 0\n", n - 1);
    fprintf(proof, "%ld 0", n + 1);
    for (long k = 1; k <= n; k++) fprintf(proof, " %ld", k);
    fprintf(proof, " 0");
}

/* N lines without a token. */
static void blank(long n) {
    base();
    for (long k = 0; k < n; k++) putc('\n', proof);
    ended(4);
}

int main(int argc, char **argv) {
    if (argc != 5) {
        fprintf(stderr, "usage: hostile KIND N TEXT PROOF\n");
        return 2;
    }
    const char *kind = argv[1];
    long n = atol(argv[2]);
    text = create(argv[3]);
    proof = create(argv[4]);
    if (!strncmp(kind, "ids", 3)) ids(n, atoi(kind + 3));
    else if (!strncmp(kind, "names", 5)) names(n, atol(kind + 5));
    else if (!strcmp(kind, "rows")) rows(n);
    else if (!strcmp(kind, "rising")) churn(n, 'r');
    else if (!strcmp(kind, "falling")) churn(n, 'f');
    else if (!strcmp(kind, "mixed")) churn(n, 'm');
    else if (!strcmp(kind, "candidate")) candidate(n);
    else if (!strcmp(kind, "last")) satisfied(n, 'l');
    else if (!strcmp(kind, "turns")) satisfied(n, 't');
    else if (!strcmp(kind, "any")) satisfied(n, 'a');
    else if (!strcmp(kind, "two")) alternating(n);
    else if (!strcmp(kind, "blanks")) line(n, ' ');
    else if (!strcmp(kind, "digits")) line(n, '7');
    else if (!strcmp(kind, "hints")) hints(n);
    else if (!strcmp(kind, "lines")) blank(n);
    else return 2;
    fclose(text);
    fclose(proof);
    return 0;
}
