// Plays the rounds of crates/propagate_bench with a plain propagation of two watched literals, and prints the same line.
//   propagate FILE ROUNDS
// Clauses lie in one block: a length, the two watched literals, and then the literals in the order of the text, in which
// another literal to watch is sought. So both programs watch the same literals, and their counts are the same.
#include <stdint.h>
#include <stdio.h>
#include <stdlib.h>

typedef uint32_t u32;
typedef uint64_t u64;

// Literals are 2 * variable - 2, and one more where they are negated.
typedef struct { u32 reference, blocker; } Entry;
typedef struct { Entry *entries; u32 length, room; } Row;

static u32 *memory, used, room;
static u32 vars;
static Row *rows;
static signed char *values; // by literal: 1 true, -1 false, 0 open
static u32 *trail, length, processed;
static u32 *reasons, *levels, level;

static void *grown(void *old, size_t size) {
    void *new = realloc(old, size);
    if (!new) { fputs("no memory\n", stderr); exit(3); }
    return new;
}

static void *zeros(size_t count, size_t size) {
    void *new = calloc(count, size);
    if (!new) { fputs("no memory\n", stderr); exit(3); }
    return new;
}

static void append(u32 word) {
    if (used == room) memory = grown(memory, (room = room ? 2 * room : 1024) * sizeof *memory);
    memory[used++] = word;
}

static void push(u32 literal, u32 reference, u32 blocker) {
    Row *row = &rows[literal];
    if (row->length == row->room) row->entries = grown(row->entries, (row->room = row->room ? 2 * row->room : 4) * sizeof(Entry));
    row->entries[row->length++] = (Entry){reference, blocker};
}

static void assign(u32 literal, u32 reason) {
    values[literal] = 1;
    values[literal ^ 1] = -1;
    reasons[literal / 2] = reason;
    levels[literal / 2] = level;
    trail[length++] = literal;
}

static void undo(u32 to) {
    while (length > to) {
        u32 literal = trail[--length];
        values[literal] = values[literal ^ 1] = 0;
    }
    processed = to;
    level = 0;
}

// Whether no clause of the row of a false literal is false; what became unit comes onto the trail.
static int look_at_row(u32 falsified) {
    Row *row = &rows[falsified];
    Entry *from = row->entries, *to = from, *end = from + row->length;
    while (from < end) {
        Entry entry = *from++;
        if (values[entry.blocker] > 0) { *to++ = entry; continue; }
        u32 *clause = memory + entry.reference;
        u32 one = clause[1], other = one == falsified ? clause[2] : one;
        int value = values[other];
        if (value > 0) { *to++ = (Entry){entry.reference, other}; continue; }
        u32 *literal = clause + 3, *last = literal + clause[0];
        while (literal < last && (*literal == other || values[*literal] < 0)) literal++;
        if (literal < last) {
            clause[1] = *literal;
            clause[2] = other;
            push(*literal, entry.reference, other);
            continue;
        }
        if (value < 0) {
            from--;
            while (from < end) *to++ = *from++;
            row->length = (u32)(to - row->entries);
            return 0;
        }
        assign(other, entry.reference);
        *to++ = (Entry){entry.reference, other};
    }
    row->length = (u32)(to - row->entries);
    return 1;
}

static int propagate(void) {
    while (processed < length) {
        if (!look_at_row(trail[processed] ^ 1)) return 0;
        processed++;
    }
    return 1;
}

// Finds watches for each clause, from none true. A clause of one literal, or of one that is repeated, makes it true.
static int attach(void) {
    for (u32 at = 0; at < used; at += memory[at] + 3) {
        u32 *literals = memory + at + 3, count = memory[at], i = 0, k;
        while (i < count && values[literals[i]] < 0) i++;
        if (i == count) return 0;
        u32 one = literals[i];
        for (k = 0; k < count && (literals[k] == one || values[literals[k]] < 0); k++);
        if (k == count) {
            if (values[one] == 0) assign(one, at);
            continue;
        }
        u32 other = literals[k];
        memory[at + 1] = one;
        memory[at + 2] = other;
        push(one, at, other);
        push(other, at, one);
    }
    return 1;
}

static void load(const char *path) {
    FILE *file = fopen(path, "r");
    if (!file) { perror(path); exit(3); }
    u32 start = 0;
    int c, literal;
    for (int k = 0; k < 3; k++) append(0);
    while ((c = getc(file)) != EOF) {
        if (c == 'c' || c == 'p') { while (c != '\n' && c != EOF) c = getc(file); continue; }
        if (c == ' ' || c == '\t' || c == '\n' || c == '\r') continue;
        ungetc(c, file);
        if (fscanf(file, "%d", &literal) != 1) { fputs("no formula\n", stderr); exit(3); }
        if (literal == 0) {
            memory[start] = used - start - 3;
            start = used;
            for (int k = 0; k < 3; k++) append(0);
        } else {
            u32 variable = (u32)abs(literal);
            if (variable > vars) vars = variable;
            append(2 * variable - 2 + (literal < 0));
        }
    }
    used = start;
    fclose(file);
}

int main(int count, char **words) {
    if (count != 3) return 2;
    u64 rounds = strtoull(words[2], NULL, 10), signs = 1;
    u64 decisions = 0, propagations = 0, conflicts = 0, played = 0;
    load(words[1]);
    rows = zeros(2 * (size_t)vars + 1, sizeof *rows);
    values = zeros(2 * (size_t)vars + 1, 1);
    trail = zeros((size_t)vars + 1, sizeof *trail);
    reasons = zeros((size_t)vars + 1, sizeof *reasons);
    levels = zeros((size_t)vars + 1, sizeof *levels);
    if (vars != 0 && attach() && propagate()) {
        u32 before = length, step = 104729 % vars;
        for (u64 round = 0; round < rounds; round++) {
            u32 at = (u32)(round * 7919 % vars);
            u64 decided = 0;
            for (u32 k = 0; k < vars; k++) {
                u32 literal = 2 * at;
                at = at + step < vars ? at + step : at + step - vars;
                if (values[literal]) continue;
                signs = signs * 6364136223846793005u + 1442695040888963407u;
                level++;
                assign(literal | (u32)(signs >> 63), UINT32_MAX);
                decided++;
                if (!propagate()) { conflicts++; break; }
            }
            played++;
            decisions += decided;
            propagations += length - before - decided;
            undo(before);
        }
    }
    printf("rounds %lu decisions %lu propagations %lu conflicts %lu\n", played, decisions, propagations, conflicts);
    return 0;
}
