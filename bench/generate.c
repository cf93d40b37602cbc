/* Writes large instances with certificates, for the speed of the checker.
 *
 *   generate chains LINES SEED TEXT PROOF   a chain of implications; each line of the proof
 *       joins a stretch of it, with some literals more, and old lines are deleted
 *   generate definitions CLAUSES LINES SEED TEXT PROOF   fresh variables, three lines each,
 *       over many clauses
 *   generate units CLAUSES LINES SEED TEXT PROOF   the same number of lines without definitions
 *   generate given|added CLAUSES LINES SEED TEXT PROOF   a chain of implications whose clauses stand
 *       in no order, given by the text or added by the proof; each further line joins twelve of
 *       them that follow one another in the chain, and nothing is deleted
 */
#include <stdio.h>
#include <stdlib.h>
#include <string.h>

static unsigned long long state;

static unsigned next(unsigned below) {
    state = state * 6364136223846793005ull + 1442695040888963407ull;
    return (unsigned)((state >> 33) % below);
}

static FILE *create(const char *path) {
    FILE *f = fopen(path, "w");
    if (!f) {
        perror(path);
        exit(1);
    }
    setvbuf(f, NULL, _IOFBF, 1 << 20);
    return f;
}

/* Variables 1 to n, clause i says that i implies i + 1; 1 holds, and n does not. */
static void chains(long lines, FILE *text, FILE *proof) {
    const int n = 20000, kept = 20000;
    for (int i = 1; i < n; i++) fprintf(text, "h -%d %d 0\n", i, i + 1);
    fprintf(text, "h 1 0\nh -%d 0\n", n);
    long id = n + 1, first = n + 2;
    for (long k = 0; k < lines; k++) {
        int length = 2 + (int)next(20), from = 1 + (int)next(n - length), more = (int)next(12);
        id++;
        fprintf(proof, "%ld -%d %d", id, from, from + length);
        for (int j = 0, v = 0; j < more; j++) {
            v += 1 + (int)next(1000);
            if (v < from || v > from + length) fprintf(proof, " %s%d", next(2) ? "-" : "", v);
        }
        fprintf(proof, " 0");
        for (int j = 0; j < length; j++) fprintf(proof, " %d", from + j);
        fprintf(proof, " 0\n");
        if (id - first >= kept) {
            fprintf(proof, "%ld d", id);
            for (int j = 0; j < kept / 2; j++) fprintf(proof, " %ld", first++);
            fprintf(proof, " 0\n");
        }
    }
    fprintf(proof, "%ld 0 %d", id + 1, n);
    for (int i = 1; i < n; i++) fprintf(proof, " %d", i);
    fprintf(proof, " %d 0\n", n + 1);
}

/* Clauses of three literals with different variables, from 2 to n. */
static void ground(long clauses, int n, FILE *text) {
    for (long k = 0; k < clauses; k++) {
        int a = 2 + (int)next(n - 3), b = a + 1 + (int)next(20), c = b + 1 + (int)next(20);
        fprintf(text, "h %s%d %s%d %s%d 0\n", next(2) ? "-" : "", a, next(2) ? "-" : "", b, next(2) ? "-" : "", c);
    }
}

static void ended(long id, long clauses, FILE *text, FILE *proof) {
    fprintf(text, "h 1 0\nh -1 0\n");
    fprintf(proof, "%ld 0 %ld %ld 0\n", id + 1, clauses + 1, clauses + 2);
}

static void definitions(long clauses, long lines, int fresh, FILE *text, FILE *proof) {
    const int n = 100000;
    ground(clauses, n, text);
    long id = clauses + 2, z = n + 64;
    for (long k = 0; k < lines; k++) {
        int a = 2 + (int)next(n - 1), b = a + 1 + (int)next(20);
        if (fresh) {
            z++;
            fprintf(proof, "%ld -%ld %d %d 0 0\n", id + 1, z, a, b);
            fprintf(proof, "%ld %ld -%d 0 -%ld 0\n", id + 2, z, a, id + 1);
            fprintf(proof, "%ld %ld -%d 0 -%ld 0\n", id + 3, z, b, id + 1);
        } else {
            fprintf(proof, "%ld 1 %d %d 0 %ld 0\n", id + 1, a, b, clauses + 1);
            fprintf(proof, "%ld 1 -%d 0 %ld 0\n", id + 2, a, clauses + 1);
            fprintf(proof, "%ld 1 -%d 0 %ld 0\n", id + 3, b, clauses + 1);
        }
        id += 3;
    }
    ended(id, clauses, text, proof);
}

/* Variables 1 to n, n implications in the order of a shuffle. The clauses that are added have a
 * literal more, which a clause of the text has alone, so that each follows from it. */
static void many(long n, long lines, int added, FILE *text, FILE *proof) {
    const int joined = 12;
    int *edges = malloc(sizeof(int) * (size_t)n);
    long *ids = malloc(sizeof(long) * (size_t)(n + 1));
    if (!edges || !ids) exit(1);
    for (long i = 0; i < n; i++) edges[i] = (int)i + 1;
    for (long i = n - 1; i > 0; i--) {
        long j = next((unsigned)i + 1);
        int e = edges[i];
        edges[i] = edges[j];
        edges[j] = e;
    }
    long id = added ? 3 : n + 2, false_at = added ? 2 : n + 1, any = n + 3;
    for (long k = 0; k < n; k++) {
        ids[edges[k]] = added ? ++id : k + 1;
        if (added) fprintf(proof, "%ld -%d %d %ld 0 1 0\n", id, edges[k], edges[k] + 1, any);
        else fprintf(text, "h -%d %d 0\n", edges[k], edges[k] + 1);
    }
    if (added) fprintf(text, "h %ld 0\n", any);
    fprintf(text, "h %ld 0\nh -%ld 0\n", n + 2, n + 2);
    for (long k = 0; k < lines; k++) {
        int from = 1 + (int)next((unsigned)(n - joined));
        fprintf(proof, "%ld -%d %d", ++id, from, from + joined);
        if (added) fprintf(proof, " %ld", any);
        fprintf(proof, " 0");
        for (int j = 0; j < joined; j++) fprintf(proof, " %ld", ids[from + j]);
        fprintf(proof, " 0\n");
    }
    fprintf(proof, "%ld 0 %ld %ld 0\n", id + 1, false_at, false_at + 1);
    free(edges);
    free(ids);
}

int main(int argc, char **argv) {
    if (argc == 6 && !strcmp(argv[1], "chains")) {
        state = strtoull(argv[3], NULL, 10);
        FILE *text = create(argv[4]), *proof = create(argv[5]);
        chains(atol(argv[2]), text, proof);
        return fclose(text) || fclose(proof);
    }
    if (argc == 7 && (!strcmp(argv[1], "definitions") || !strcmp(argv[1], "units"))) {
        state = strtoull(argv[4], NULL, 10);
        FILE *text = create(argv[5]), *proof = create(argv[6]);
        definitions(atol(argv[2]), atol(argv[3]), argv[1][0] == 'd', text, proof);
        return fclose(text) || fclose(proof);
    }
    if (argc == 7 && (!strcmp(argv[1], "given") || !strcmp(argv[1], "added"))) {
        state = strtoull(argv[4], NULL, 10);
        FILE *text = create(argv[5]), *proof = create(argv[6]);
        many(atol(argv[2]), atol(argv[3]), argv[1][0] == 'a', text, proof);
        return fclose(text) || fclose(proof);
    }
    fprintf(stderr, "usage: generate chains LINES SEED TEXT PROOF | definitions|units|given|added CLAUSES LINES SEED TEXT PROOF\n");
    return 2;
}
