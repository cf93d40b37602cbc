# Small random instances and their least costs, found by trying all assignments.
#   awk -v dir=FOLDER -v count=N -f tests/program/random.awk
# writes FOLDER/1.wcnf to FOLDER/N.wcnf, and prints a line for each: its number, and the least cost or 'none'.
# The generator is Lehmer's (x -> 16807 x mod 2^31 - 1), so that each awk makes the same instances.

# a number from 0 below n
function pick(n) {
    state = (state * 16807) % 2147483647
    return int(state / 2147483647 * n)
}

# A weight is kept as high * 10^9 + low, since it may have more digits than a number of awk holds.
function choose_weight(s, kind) {
    high[s] = 0
    if (kind == 0) low[s] = 1
    else if (kind == 1) low[s] = 1 + pick(4)
    else if (kind == 2) low[s] = 1 + pick(50)
    else if (kind == 3) low[s] = 2 ^ pick(20) + pick(2)
    else { high[s] = pick(400000000); low[s] = 1 + pick(999999999) }
}

function spell(h, l) {
    return h > 0 ? sprintf("%.0f%09d", h, l) : sprintf("%d", l)
}

# a clause of least to most literals, which may be repeated or opposite
function choose_clause(c, least, most,    n, k) {
    n = least + pick(most - least + 1)
    text[c] = ""
    for (k = 0; k < n; k++) text[c] = text[c] (pick(2) ? "-" : "") (1 + pick(variables)) " "
}

# whether the clause is true where bit v - 1 of the assignment is the value of variable v
function is_true(c,    n, k, v, words) {
    n = split(text[c], words, " ")
    for (k = 1; k <= n; k++) {
        v = words[k] < 0 ? -words[k] : words[k]
        if ((int(assignment / 2 ^ (v - 1)) % 2 == 1) == (words[k] > 0)) return 1
    }
    return 0
}

function is_feasible(    c) {
    for (c = 1; c <= hard; c++) if (!is_true(c)) return 0
    return 1
}

# sets cost_high and cost_low
function add_up(    s) {
    cost_high = 0
    cost_low = 0
    for (s = 1; s <= soft; s++) {
        if (is_true(hard + s)) continue
        cost_high += high[s]
        cost_low += low[s]
    }
    cost_high += int(cost_low / 1000000000)
    cost_low %= 1000000000
}

function least_cost(    h, l, found) {
    found = 0
    for (assignment = 0; assignment < 2 ^ variables; assignment++) {
        if (!is_feasible()) continue
        add_up()
        if (!found || cost_high < h || (cost_high == h && cost_low < l)) { h = cost_high; l = cost_low }
        found = 1
    }
    return found ? spell(h, l) : "none"
}

BEGIN {
    state = 20250101
    for (i = 1; i <= count; i++) {
        variables = 1 + pick(8)
        hard = pick(pick(4) == 0 ? 40 : 2 * variables)
        soft = pick(4) + pick(8)
        kind = pick(5)
        for (c = 1; c <= hard; c++) {
            choose_clause(c, pick(100) == 0 ? 0 : 1 + pick(2), 4)
        }
        for (s = 1; s <= soft; s++) {
            choose_weight(s, kind)
            choose_clause(hard + s, pick(20) == 0 ? 0 : 1, pick(3) ? 1 : 3)
        }
        file = dir "/" i ".wcnf"
        printf "" > file
        for (c = 1; c <= hard; c++) printf "h %s0\n", text[c] > file
        for (s = 1; s <= soft; s++) printf "%s %s0\n", spell(high[s], low[s]), text[hard + s] > file
        close(file)
        # only variables that occur count, and those that don't change nothing
        print i, least_cost()
    }
}
