/* A plain LRAT checker, the baseline for the speed of `wmax check`: hints are followed over
 * flat clauses with a stamped assignment. Clauses are found by their id in a table; from the first
 * id on that is far above the number of additions they are found by halves, since ids rise. The candidates of a RAT line are
 * counted: from the first such line on each literal has a count of the live clauses it is in.
 *
 *   lrat_check TEXT PROOF    TEXT: a WCNF text with hard clauses alone
 */
#include <stdio.h>
#include <stdlib.h>
#include <string.h>

typedef struct {
    size_t start;
    int length; /* -1: not live */
} Entry;

typedef struct {
    size_t id;
    Entry entry;
} Far;

static int *arena;
static size_t used, room, dead;
static Entry *entries;
static size_t ids, ids_room;
static Far *fars;
static size_t far_count, far_room, additions;
static int is_far;
static unsigned *counts; /* NULL: no RAT line so far */
static unsigned *stamps, stamp;
static size_t stamps_room;

static void *grown(void *p, size_t bytes) {
    p = realloc(p, bytes);
    if (!p) {
        fprintf(stderr, "memory\n");
        exit(3);
    }
    return p;
}

static char *read_all(const char *path, size_t *length) {
    FILE *f = fopen(path, "rb");
    if (!f) {
        perror(path);
        exit(3);
    }
    size_t size = 0, capacity = 1 << 16;
    char *text = grown(NULL, capacity);
    for (;;) {
        size_t n = fread(text + size, 1, capacity - size, f);
        if (n == 0) break;
        size += n;
        if (size == capacity) text = grown(text, capacity *= 2);
    }
    fclose(f);
    *length = size;
    return text;
}

static unsigned code(int lit) { return 2 * (unsigned)abs(lit) + (lit < 0); }

static void push(int lit) {
    if (used == room) arena = grown(arena, sizeof(int) * (room = room ? 2 * room : 1024));
    arena[used++] = lit;
    if (code(lit) + 2 > stamps_room) {
        size_t old = stamps_room;
        stamps_room = 2 * ((size_t)code(lit) + 2);
        stamps = grown(stamps, sizeof(unsigned) * stamps_room);
        memset(stamps + old, 0, sizeof(unsigned) * (stamps_room - old));
        if (counts) {
            counts = grown(counts, sizeof(unsigned) * stamps_room);
            memset(counts + old, 0, sizeof(unsigned) * (stamps_room - old));
        }
    }
}

/* The entry of an id, or NULL where there is none that is live. */
static Entry *find(long id) {
    Entry *e = NULL;
    if (id > 0 && (size_t)id < ids) {
        e = &entries[id];
    } else if (id > 0) {
        size_t low = 0, high = far_count;
        while (low < high) {
            size_t middle = (low + high) / 2;
            if (fars[middle].id < (size_t)id) low = middle + 1;
            else high = middle;
        }
        if (low < far_count && fars[low].id == (size_t)id) e = &fars[low].entry;
    }
    return e && e->length >= 0 ? e : NULL;
}

static void counted(const Entry *e, int more) {
    if (counts)
        for (int i = 0; i < e->length; i++) counts[code(arena[e->start + (size_t)i])] += (unsigned)more;
}

static void compact(void) {
    size_t to = 0;
    for (size_t i = 0; i < ids; i++) {
        if (entries[i].length < 0) continue;
        memmove(arena + to, arena + entries[i].start, sizeof(int) * (size_t)entries[i].length);
        entries[i].start = to;
        to += (size_t)entries[i].length;
    }
    size_t kept = 0;
    for (size_t i = 0; i < far_count; i++) {
        Far f = fars[i];
        if (f.entry.length < 0) continue;
        memmove(arena + to, arena + f.entry.start, sizeof(int) * (size_t)f.entry.length);
        f.entry.start = to;
        to += (size_t)f.entry.length;
        fars[kept++] = f;
    }
    far_count = kept;
    used = to;
    dead = 0;
}

static void put(size_t id, size_t start) {
    additions++;
    if (is_far || id > 1024 + 16 * additions) {
        is_far = 1;
        if (far_count == far_room) fars = grown(fars, sizeof(Far) * (far_room = far_room ? 2 * far_room : 1024));
        fars[far_count].id = id;
        fars[far_count].entry.start = start;
        fars[far_count].entry.length = (int)(used - start);
        counted(&fars[far_count++].entry, 1);
        return;
    }
    if (id >= ids_room) {
        while (id >= ids_room) ids_room = ids_room ? 2 * ids_room : 1024;
        entries = grown(entries, sizeof(Entry) * ids_room);
    }
    while (ids <= id) entries[ids++].length = -1;
    entries[id].start = start;
    entries[id].length = (int)(used - start);
    counted(&entries[id], 1);
}

static const char *at, *end;

static void fail(const char *why, long line) {
    printf("NO %s %ld\n", why, line);
    exit(1);
}

/* The next number of the line; 0 sets *over where there is none. */
static long number(int *over, int *letter) {
    while (at < end && (*at == ' ' || *at == '\t' || *at == '\r')) at++;
    *over = *letter = 0;
    if (at >= end || *at == '\n') {
        *over = 1;
        return 0;
    }
    int negative = *at == '-';
    at += negative;
    if (*at == 'd' || *at == 'h' || *at == 'c') {
        *letter = *at++;
        return 0;
    }
    long n = 0;
    while (at < end && *at >= '0' && *at <= '9') n = 10 * n + (*at++ - '0');
    return negative ? -n : n;
}

static size_t read_hard(const char *text, size_t length) {
    size_t id = 0;
    at = text;
    end = text + length;
    while (at < end) {
        int over, letter;
        number(&over, &letter);
        if (letter == 'h') {
            size_t start = used;
            for (;;) {
                long l = number(&over, &letter);
                if (l == 0) break;
                push((int)l);
            }
            put(++id, start);
        }
        while (at < end && *at != '\n') at++;
        at++;
    }
    return id;
}

static int is_true(int lit) { return stamps[code(lit)] == stamp; }

/* What is assumed since the clause's own literals, to be taken back after a group. */
static int *trail;
static size_t trail_length, trail_room;

static void assume(int lit) {
    if (trail_length == trail_room) trail = grown(trail, sizeof(int) * (trail_room = trail_room ? 2 * trail_room : 1024));
    trail[trail_length++] = lit;
    stamps[code(lit)] = stamp;
}

/* 1: refuted; 0: goes on. */
static int hint(long id, long line) {
    const Entry *e = find(id);
    if (!e) fail("DeadId", line);
    const int *c = arena + e->start;
    int open = 0;
    for (int i = 0, n = e->length; i < n; i++) {
        if (is_true(-c[i])) continue;
        if (open) fail("HintNotUnit", line);
        open = c[i];
    }
    if (!open) return 1;
    if (is_true(open)) fail("HintNotUnit", line);
    assume(open);
    return 0;
}

static void delete(long id, long line) {
    Entry *e = find(id);
    if (!e) fail("DeadId", line);
    counted(e, -1);
    dead += (size_t)e->length;
    e->length = -1;
}

static int has(const Entry *e, int lit) {
    for (int i = 0; i < e->length; i++)
        if (arena[e->start + (size_t)i] == lit) return 1;
    return 0;
}

static void count_all(void) {
    counts = grown(NULL, sizeof(unsigned) * stamps_room);
    memset(counts, 0, sizeof(unsigned) * stamps_room);
    for (size_t i = 0; i < ids; i++)
        if (entries[i].length >= 0) counted(&entries[i], 1);
    for (size_t i = 0; i < far_count; i++)
        if (fars[i].entry.length >= 0) counted(&fars[i].entry, 1);
}

/* The hints from the first group on, as they were read. */
static void rat(int pivot, const long *group, size_t groups, long line) {
    if (!counts) count_all();
    unsigned named = 0;
    long before = 0;
    for (size_t i = 0; i < groups; i++)
        if (group[i] < 0) {
            const Entry *e = find(-group[i]);
            if (!e || -group[i] <= before || !has(e, -pivot)) fail("Candidates", line);
            before = -group[i];
            named++;
        }
    if (named != ((code(-pivot) < stamps_room) ? counts[code(-pivot)] : 0)) fail("Candidates", line);
    for (size_t i = 0; i < groups;) {
        const Entry *e = find(-group[i++]);
        const int *c = arena + e->start;
        int skip = 0, refuted = 0;
        size_t trail_before = trail_length;
        for (int k = 0; k < e->length; k++) skip |= c[k] != -pivot && is_true(c[k]);
        if (!skip)
            for (int k = 0; k < e->length; k++)
                if (c[k] != -pivot && !is_true(-c[k])) assume(-c[k]);
        for (; i < groups && group[i] > 0; i++) {
            if (skip || refuted) fail("HintAfterConflict", line);
            refuted = hint(group[i], line);
        }
        if (!skip && !refuted) fail("NoConflict", line);
        while (trail_length > trail_before) stamps[code(trail[--trail_length])] = 0;
    }
}

static void check(const char *text, size_t length, size_t last) {
    long line = 0;
    int done = 0;
    at = text;
    end = text + length;
    while (at < end) {
        int over, letter;
        line++;
        long id = number(&over, &letter);
        if (!over) {
            if (done) fail("TrailingLine", line);
            size_t start = used;
            long l = number(&over, &letter);
            if (letter == 'd') {
                while ((l = number(&over, &letter))) delete(l, line);
                if (2 * dead > used && used > 4096) compact();
            } else {
                if ((size_t)id <= last) fail("IdOrder", line);
                stamp++;
                for (; l; l = number(&over, &letter)) {
                    push((int)l);
                    if (is_true((int)l) || is_true(-(int)l)) fail("ClauseForm", line);
                    stamps[code(-(int)l)] = stamp;
                }
                int refuted = 0, pivot = used > start ? arena[start] : 0;
                trail_length = 0;
                while ((l = number(&over, &letter)) > 0) {
                    if (refuted) fail("HintAfterConflict", line);
                    refuted = hint(l, line);
                }
                if (!refuted) {
                    static long *group;
                    static size_t group_room;
                    size_t groups = 0;
                    if (!pivot) fail("NoConflict", line);
                    for (; l; l = number(&over, &letter)) {
                        if (groups == group_room) group = grown(group, sizeof(long) * (group_room = group_room ? 2 * group_room : 1024));
                        group[groups++] = l;
                    }
                    rat(pivot, group, groups, line);
                } else if (l) fail("HintAfterConflict", line);
                done = used == start;
                put((size_t)id, start);
                last = (size_t)id;
            }
        }
        while (at < end && *at != '\n') at++;
        at++;
    }
    if (!done) fail("NoEmptyClause", 0);
}

int main(int argc, char **argv) {
    if (argc != 3) {
        fprintf(stderr, "usage: lrat_check TEXT PROOF\n");
        return 2;
    }
    size_t text_length, proof_length;
    char *text = read_all(argv[1], &text_length), *proof = read_all(argv[2], &proof_length);
    size_t last = read_hard(text, text_length);
    check(proof, proof_length, last);
    printf("YES\n");
    return 0;
}
