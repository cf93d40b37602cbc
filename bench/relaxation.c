// Solves the linear relaxation of an instance as crates/relaxation_bench does, and prints the same line.
//   relaxation FILE MOST ROUNDS
// The matrix is as in a book: for each coefficient a column and a sign in floats, for each number a vector of its own.
#include <math.h>
#include <stdint.h>
#include <stdio.h>
#include <stdlib.h>
#include <string.h>

static int rows, columns, coefficients, room;
static int *start, *column;
static double *sign, *bound, *cost, constant;
static double *x, *y, *x_now, *y_now, *x_anchor, *y_anchor, *seen, *pull, *trial_pull, *x_step, *y_step, *best_y;
static double scale;

static void *grown(void *old, size_t size) {
    void *new = realloc(old, size + 1);
    if (!new) { fputs("no memory\n", stderr); exit(3); }
    return new;
}

// Hard clauses, and soft clauses of one literal; others are left out.
static void load(const char *path) {
    FILE *file = fopen(path, "r");
    if (!file) { fputs("no file\n", stderr); exit(3); }
    char *line = NULL;
    size_t size = 0;
    int clauses = 0;
    while (getline(&line, &size, file) > 0) {
        char *at = line + 1;
        double weight = -1;
        if (*line == 'c' || *line == '\n') continue;
        if (*line != 'h') weight = strtod(line, &at);
        int lits[4096], length = 0, lit;
        while ((lit = strtol(at, &at, 10)) && length < 4096) {
            int i = 0;
            while (i < length && lits[i] != lit) i++;
            if (i < length) continue;
            lits[length++] = lit;
            if (abs(lit) > columns) {
                cost = grown(cost, abs(lit) * sizeof *cost);
                while (columns < abs(lit)) cost[columns++] = 0;
            }
        }
        if (weight >= 0) {
            if (length != 1) continue;
            int v = abs(lits[0]) - 1;
            if (lits[0] > 0) { constant += weight; cost[v] -= weight; } else cost[v] += weight;
            continue;
        }
        if (rows + 2 > clauses) {
            clauses = 2 * clauses + 64;
            start = grown(start, clauses * sizeof *start);
            bound = grown(bound, clauses * sizeof *bound);
        }
        if (coefficients + length > room) {
            room = 2 * room + length;
            column = grown(column, room * sizeof *column);
            sign = grown(sign, room * sizeof *sign);
        }
        start[rows] = coefficients;
        bound[rows] = 1;
        for (int i = 0; i < length; i++) {
            bound[rows] -= lits[i] < 0;
            column[coefficients] = abs(lits[i]) - 1;
            sign[coefficients++] = lits[i] < 0 ? -1 : 1;
        }
        start[++rows] = coefficients;
    }
    fclose(file);
}

static double *numbers(int count) { return grown(NULL, count * sizeof(double)); }

static void make_room(void) {
    x = numbers(columns); x_now = numbers(columns); x_anchor = numbers(columns); seen = numbers(columns);
    pull = numbers(columns); trial_pull = numbers(columns); x_step = numbers(columns);
    y = numbers(rows); y_now = numbers(rows); y_anchor = numbers(rows); y_step = numbers(rows); best_y = numbers(rows);
}

static void step(double weight) {
    double rest = 1 - weight, inverse = 1 / scale;
    for (int v = 0; v < columns; v++) {
        double t = x_now[v] - x_step[v] * inverse * (cost[v] - pull[v]);
        t = t < 0 ? 0 : t > 1 ? 1 : t;
        x[v] = t;
        seen[v] = 2 * t - x_now[v];
        x_now[v] = weight * seen[v] + rest * x_anchor[v];
        pull[v] = 0;
    }
    for (int r = 0; r < rows; r++) {
        double lack = bound[r];
        for (int i = start[r]; i < start[r + 1]; i++) lack -= sign[i] * seen[column[i]];
        double t = y_now[r] + y_step[r] * scale * lack;
        y[r] = t < 0 ? 0 : t;
        y_now[r] = weight * (2 * y[r] - y_now[r]) + rest * y_anchor[r];
        if (y_now[r] != 0)
            for (int i = start[r]; i < start[r + 1]; i++) pull[column[i]] += sign[i] * y_now[r];
    }
}

static double cost_now, lack_now;

static double measure(void) {
    double g = constant;
    cost_now = constant;
    lack_now = 0;
    memset(trial_pull, 0, columns * sizeof *trial_pull);
    for (int r = 0; r < rows; r++) {
        double lack = bound[r];
        for (int i = start[r]; i < start[r + 1]; i++) { lack -= sign[i] * x[column[i]]; trial_pull[column[i]] += sign[i] * y[r]; }
        g += bound[r] * y[r];
        if (lack > 0) lack_now += lack * lack;
    }
    for (int v = 0; v < columns; v++) {
        double reduced = cost[v] - trial_pull[v];
        if (reduced < 0) g += reduced;
        cost_now += cost[v] * x[v];
    }
    return g;
}

static double distance(int count, double *to, double *from) {
    double square = 0;
    for (int i = 0; i < count; i++) square += (to[i] - from[i]) * (to[i] - from[i]);
    return square;
}

static void restart(double balance) {
    double dx = distance(columns, x, x_anchor), dy = distance(rows, y, y_anchor);
    if (dx > 1e-14 && dy > 1e-14 * balance * balance) scale = sqrt(sqrt(dy / dx) * scale);
    scale = fmin(fmax(scale, balance / 1e3), balance * 1e3);
    memcpy(x_now, x, columns * sizeof *x); memcpy(x_anchor, x, columns * sizeof *x);
    memcpy(y_now, y, rows * sizeof *y); memcpy(y_anchor, y, rows * sizeof *y);
    memcpy(pull, trial_pull, columns * sizeof *x);
}

static double solve(int most, int *iterations) {
    double costs = 0, bounds = 0, best = constant, error0 = -1, last = 1e300;
    memset(x_step, 0, columns * sizeof *x_step);
    for (int i = 0; i < coefficients; i++) x_step[column[i]]++;
    for (int v = 0; v < columns; v++) {
        x_step[v] = 1 / fmax(1, x_step[v]);
        x[v] = x_anchor[v] = 0.5;
        costs += cost[v] * cost[v];
        if (cost[v] < 0) best += cost[v];
    }
    for (int r = 0; r < rows; r++) {
        y_step[r] = 1 / fmax(1, start[r + 1] - start[r]);
        y[r] = y_anchor[r] = best_y[r] = 0;
        bounds += bound[r] * bound[r];
    }
    double balance = costs > 0 ? sqrt(costs) / fmax(1, sqrt(bounds)) : 1;
    scale = balance;
    measure();
    restart(balance);
    int since = 0, k = 0;
    while (k < most) {
        step((since + 1.0) / (since + 2.0));
        k++;
        since++;
        if (k % 10 && k != most) continue;
        double g = measure(), error = sqrt(balance * balance * lack_now + (cost_now - g) * (cost_now - g));
        if (g > best) { best = g; memcpy(best_y, y, rows * sizeof *y); }
        if (error < 1e-5 * (1 + fabs(best))) break;
        int due = error0 < 0 || error < .2 * error0 || (error < .8 * error0 && error > last) || since > .36 * k;
        last = error;
        if (!due) continue;
        restart(balance);
        since = 0;
        error0 = error;
        last = 1e300;
    }
    *iterations = k;
    return best;
}

int main(int words, char **word) {
    if (words != 4) { fputs("relaxation FILE MOST ROUNDS\n", stderr); return 3; }
    int iterations = 0;
    double best = 0;
    load(word[1]);
    make_room();
    for (int round = 0; round < atoi(word[3]); round++) best = solve(atoi(word[2]), &iterations);
    printf("thousandths %lld iterations %d\n", (long long)round(best * 1000), iterations);
}
