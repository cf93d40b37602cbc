/* Changes texts, results and certificates at random, and compares what the program says of them in two ways.
 *
 *   fuzz PROGRAM PLAIN FOLDER SEED RUNS NAME..
 *
 * FOLDER has NAME.wcnf, NAME.result and NAME.lrat for each NAME; a NAME that ends in -P is of profile P, any other of profile
 * 1. Each run changes one of the three files and asks `PROGRAM check` twice: of the files, and with the certificate through a
 * pipe that cuts it into pieces at random. Both must say the same, in the form of a verdict. Where they say YES, the formula
 * that `PROGRAM encode` prints and the certificate are given to PLAIN, a checker of its own, which must accept them, or find
 * that hints end without a conflict: it knows no RAT lines, and a line whose pivot has no candidates is one. In profile 3 that
 * is the certificate that `PROGRAM encode --lrat` writes. Prints 'SEED RUNS YES PLAIN WRONG', where PLAIN counts what that
 * one accepted.
 */
#define _GNU_SOURCE
#include <fcntl.h>
#include <signal.h>
#include <spawn.h>
#include <stdint.h>
#include <stdio.h>
#include <stdlib.h>
#include <string.h>
#include <sys/wait.h>
#include <unistd.h>

extern char **environ;

typedef struct {
    char *bytes;
    size_t length;
} Text;

static uint64_t state;

static uint64_t below(uint64_t bound) {
    state ^= state << 13;
    state ^= state >> 7;
    state ^= state << 17;
    return bound ? (state >> 11) % bound : 0;
}

static Text read_text(const char *path) {
    FILE *f = fopen(path, "rb");
    if (!f) {
        perror(path);
        exit(2);
    }
    Text t = {malloc(1 << 20), 0};
    t.length = fread(t.bytes, 1, 1 << 19, f);
    fclose(f);
    return t;
}

static void write_text(const char *path, Text t) {
    FILE *f = fopen(path, "wb");
    if (!f || fwrite(t.bytes, 1, t.length, f) != t.length || fclose(f) != 0) {
        perror(path);
        exit(2);
    }
}

static void put_in(Text *t, size_t at, size_t out, const char *in, size_t count) {
    memmove(t->bytes + at + count, t->bytes + at + out, t->length - at - out);
    memcpy(t->bytes + at, in, count);
    t->length += count - out;
}

/* One change: a byte is set, put in or taken out, the end is cut off, or a line is taken out or repeated. */
static void change(Text *t) {
    static const char common[] = "0123456789000111   ----\n\n\r\tdhpcosv+x";
    char byte = below(8) ? common[below(sizeof common - 1)] : (char)below(256);
    size_t at = below(t->length + 1);
    size_t start = at, end = at;
    switch (below(8)) {
    case 0:
    case 1:
    case 2:
        put_in(t, at, at < t->length, &byte, 1);
        break;
    case 3:
        put_in(t, at, 0, &byte, 1);
        break;
    case 4:
        put_in(t, at, at < t->length, "", 0);
        break;
    case 5:
        t->length = at;
        break;
    default:
        while (start > 0 && t->bytes[start - 1] != '\n') start--;
        while (end < t->length && t->bytes[end++] != '\n') {}
        if (below(2)) {
            put_in(t, start, end - start, "", 0);
        } else {
            char *line = malloc(end - start + 1);
            memcpy(line, t->bytes + start, end - start);
            put_in(t, start, 0, line, end - start);
            free(line);
        }
    }
}

/* Runs a command to its end; what it prints, and its status or -1 for a signal. Its input is `in` in pieces, if given. */
static int run(char *const words[], const Text *in, char *out, size_t room) {
    int from[2], to[2] = {-1, -1};
    if (pipe2(from, O_CLOEXEC) || (in && pipe2(to, O_CLOEXEC | O_DIRECT))) exit(2);
    posix_spawn_file_actions_t actions;
    posix_spawn_file_actions_init(&actions);
    posix_spawn_file_actions_adddup2(&actions, from[1], 1);
    if (in) posix_spawn_file_actions_adddup2(&actions, to[0], 0);
    pid_t child;
    if (posix_spawn(&child, words[0], &actions, NULL, words, environ)) exit(2);
    posix_spawn_file_actions_destroy(&actions);
    close(from[1]);
    if (in) {
        close(to[0]);
        size_t most = 1 + below(in->length / 8 + 2), sent = 0;
        while (sent < in->length) {
            size_t piece = 1 + below(most);
            if (piece > in->length - sent) piece = in->length - sent;
            if (piece > 4096) piece = 4096;
            ssize_t n = write(to[1], in->bytes + sent, piece);
            if (n <= 0) break;
            sent += (size_t)n;
        }
        close(to[1]);
    }
    size_t got = 0;
    for (ssize_t n; got < room - 1 && (n = read(from[0], out + got, room - 1 - got)) > 0;) got += (size_t)n;
    out[got] = 0;
    close(from[0]);
    int status;
    waitpid(child, &status, 0);
    return WIFEXITED(status) ? WEXITSTATUS(status) : -1;
}

static int is_verdict(int status, const char *out) {
    char cause[32];
    int line, end = 0;
    if (status == 0) return strcmp(out, "YES\n") == 0;
    return status == 1 && sscanf(out, "NO %31s %d\n%n", cause, &line, &end) == 2 && out[end] == 0;
}

static char *program, *plain, *folder, *profile;
static char paths[5][4096];

/* Whether the plain checker accepts the certificate over the formula that the program prints; -1 where it can't say. */
static int is_accepted(void) {
    Text result = read_text(paths[1]);
    result.bytes[result.length] = 0;
    char *last = NULL, cost[32] = "";
    for (char *at = result.bytes; at && *at; at = strchr(at, '\n') ? strchr(at, '\n') + 1 : NULL) {
        char *token = at + strspn(at, " \t");
        if (token[0] == 'o') last = token + 1;
    }
    if (last) sscanf(last, "%31[ \t0-9]", cost);
    free(result.bytes);
    static char formula[1 << 20];
    char *number = cost + strspn(cost, " \t");
    number[strcspn(number, " \t")] = 0;
    char *words[] = {program, "encode", "--profile", profile, paths[0], number, NULL};
    char *cuts[] = {program, "encode", "--profile", profile, "--proof", paths[2], "--lrat", paths[4], paths[0], number, NULL};
    int is_cuts = strcmp(profile, "3") == 0;
    if (!last) return -1; /* no bound: its formula is of the hard clauses alone, which `encode` does not print */
    if (run(is_cuts ? cuts : words, NULL, formula, sizeof formula) != 0) return 0;
    FILE *f = fopen(paths[3], "wb");
    for (char *line = strchr(formula, '\n'); line && line[1]; line = strchr(line + 1, '\n')) {
        size_t length = strcspn(line + 1, "\n");
        fprintf(f, "h %.*s\n", (int)length, line + 1);
    }
    fclose(f);
    char said[256];
    char *check[] = {plain, paths[3], paths[is_cuts ? 4 : 2], NULL};
    if (run(check, NULL, said, sizeof said) == 0) return 1;
    return strstr(said, "NoConflict") ? -1 : 0;
}

int main(int count, char **words) {
    if (count < 7) return 2;
    signal(SIGPIPE, SIG_IGN); /* the program reads no further than the first faulty line */
    program = words[1], plain = words[2], folder = words[3];
    state = strtoull(words[4], NULL, 10) * 0x9E3779B97F4A7C15u + 1;
    long runs = atol(words[5]), wrong = 0, yes = 0, accepted = 0;
    static const char *kinds[] = {"wcnf", "result", "lrat"};
    int names = count - 6;
    for (int i = 0; i < 5; i++) snprintf(paths[i], sizeof paths[i], "%s/%s.%d", folder, words[4], i);
    for (long i = 0; i < runs; i++) {
        char *name = words[6 + below((uint64_t)names)], *dash = strrchr(name, '-');
        profile = dash ? dash + 1 : "1";
        int changed = (int)below(3);
        Text proof = {NULL, 0};
        for (int k = 0; k < 3; k++) {
            char path[4096];
            snprintf(path, sizeof path, "%s/%s.%s", folder, name, kinds[k]);
            Text t = read_text(path);
            for (uint64_t n = k == changed ? 1 + below(3) : 0; n > 0; n--) change(&t);
            write_text(paths[k], t);
            if (k == 2) proof = t; else free(t.bytes);
        }
        char out[2][256];
        char *whole[] = {program, "check", "--profile", profile, paths[0], paths[1], paths[2], NULL};
        char *pieces[] = {program, "check", "--profile", profile, paths[0], paths[1], "/dev/stdin", NULL};
        int status = run(whole, NULL, out[0], sizeof out[0]);
        int other = run(pieces, &proof, out[1], sizeof out[1]);
        int good = status == other && strcmp(out[0], out[1]) == 0 && is_verdict(status, out[0]);
        if (good && status == 0) {
            yes++;
            int said = is_accepted();
            accepted += said == 1;
            good = said != 0;
        }
        if (!good) {
            wrong++;
            printf("run %ld of seed %s, %s.%s: %d [%s] and %d [%s]\n", i, words[4], name, kinds[changed], status, out[0], other, out[1]);
        }
        free(proof.bytes);
    }
    printf("%s %ld %ld %ld %ld\n", words[4], runs, yes, accepted, wrong);
    return wrong != 0;
}
