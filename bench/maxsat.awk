# Instances of weighted partial MaxSAT as a user has them, by family, size and seed, in the form of the
# MaxSAT Evaluation 2022.
#   awk -v family=NAME -v size=N -v seed=N -f bench/maxsat.awk
# The generator is Lehmer's (x -> 16807 x mod 2^31 - 1), so that each awk makes the same instances.

# a number from 0 below n
function pick(n) {
    state = (state * 16807) % 2147483647
    return int(state / 2147483647 * n)
}

function sign() { return pick(2) ? "-" : "" }

function hard(lits) { print "h " lits " 0" }

function soft(weight, lits) { print weight " " lits " 0" }

# at most one of the variables from first on, `step` apart
function at_most_one(first, count, step,    i, j) {
    for (i = 0; i < count; i++)
        for (j = i + 1; j < count; j++) hard("-" (first + i * step) " -" (first + j * step))
}

# clauses of three literals, and soft ones of two
function random(n,    i) {
    for (i = 0; i < 3 * n; i++) hard(sign() (1 + pick(n)) " " sign() (1 + pick(n)) " " sign() (1 + pick(n)))
    for (i = 0; i < 3 * n; i++) soft(1 + pick(9), sign() (1 + pick(n)) " " sign() (1 + pick(n)))
}

# each element is in some chosen set; a set costs its weight
function set_cover(n,    e, k, c) {
    for (e = 0; e < 2 * n; e++) {
        c = ""
        for (k = 0; k < 4; k++) c = c " " (1 + pick(n))
        hard(substr(c, 2))
    }
    for (k = 1; k <= n; k++) soft(1 + pick(20), "-" k)
}

# each edge has a chosen end
function vertex_cover(n,    i, u, v) {
    for (i = 0; i < 3 * n; i++) {
        u = 1 + pick(n)
        v = 1 + pick(n)
        if (u != v) hard(u " " v)
    }
    for (i = 1; i <= n; i++) soft(1 + pick(5), "-" i)
}

# Packages with dependencies and conflicts: some are asked for, and each has a size. What is asked for may be refused at a
# high price.
function package_choice(n,    p, k, c) {
    for (p = 1; p <= n; p++) {
        for (k = pick(3); k > 0; k--) {
            c = "-" p
            for (j = 1 + pick(3); j > 0; j--) c = c " " (1 + pick(n))
            hard(c)
        }
        if (pick(2)) {
            k = 1 + pick(n)
            if (k != p) hard("-" p " -" k)
        }
        soft(1 + pick(30), "-" p)
    }
    for (k = 0; k < n / 5; k++) soft(100 + pick(100), "" (1 + pick(n)))
}

# Events in slots: each stands in one, events with a common guest not in the same. Each slot of an event is wished for
# more or less, and events with a common host are better apart.
function timetabling(n,    slots, e, s, k, c, d) {
    slots = 5
    for (e = 0; e < n; e++) {
        c = ""
        for (s = 1; s <= slots; s++) c = c " " (e * slots + s)
        hard(substr(c, 2))
        at_most_one(e * slots + 1, slots, 1)
        for (s = 1; s <= slots; s++) soft(1 + pick(20), "-" (e * slots + s))
    }
    for (k = 0; k < 2 * n; k++) {
        c = pick(n)
        d = pick(n)
        if (c == d) continue
        for (s = 1; s <= slots; s++) {
            if (k < n) hard("-" (c * slots + s) " -" (d * slots + s))
            else soft(1 + pick(9), "-" (c * slots + s) " -" (d * slots + s))
        }
    }
}

# A circuit of gates that may be broken: what is seen at its outputs is wrong, and few broken gates explain it.
function diagnosis(n,    inputs, g, a, b, o, h) {
    inputs = 8
    for (g = 1; g <= inputs; g++) hard(sign() g)
    for (g = 1; g <= n; g++) {
        o = inputs + g
        h = inputs + n + g
        a = o - 1 - pick(o - 1 < 12 ? o - 1 : 12)
        b = o - 1 - pick(o - 1 < 12 ? o - 1 : 12)
        soft(1 + pick(6), "" h)
        if (pick(2)) {
            hard("-" h " " o " " a " " b)
            hard("-" h " " o " -" a " -" b)
            hard("-" h " -" o " -" a " " b)
            hard("-" h " -" o " " a " -" b)
        } else {
            hard("-" h " -" o " " a)
            hard("-" h " -" o " " b)
            hard("-" h " " o " -" a " -" b)
        }
    }
    for (g = n - int(n / 8); g <= n; g++) hard(sign() (inputs + g))
}

# Jobs of one hour on one machine, each within its window: those that are not done cost their weight.
function scheduling(n,    hours, j, t, first, last, c) {
    hours = int(n / 2) + 2
    for (j = 0; j < n; j++) {
        first = pick(hours - 3)
        last = first + 1 + pick(5)
        c = ""
        for (t = 0; t < hours; t++) {
            if (t < first || t > last) hard("-" (j * hours + t + 1))
            else c = c " " (j * hours + t + 1)
        }
        soft(1 + pick(40), substr(c, 2))
    }
    for (t = 0; t < hours; t++) at_most_one(t + 1, n, hours)
}

# The families below are such as people have: larger, and with the structure of what they are about.

# Packages in versions, some installed: what is wanted, with least change. A version needs ranges of versions of packages of a
# smaller number; what the installed ones need is installed. Each package that is removed, new, changed or behind costs.
function upgrade(n,    p, v, k, q, low, high, c, first, versions, installed, base, total) {
    for (p = 1; p <= n; p++) {
        versions[p] = 1 + pick(5)
        base[p] = total
        total += versions[p]
        installed[p] = pick(3) ? 1 + pick(versions[p]) : 0
        for (v = 1; v <= versions[p]; v++) {
            for (k = 1; k < v; k++) hard("-" (base[p] + k) " -" (base[p] + v))
            for (k = p > 1 ? pick(4) : 0; k > 0; k--) {
                c = "-" (base[p] + v)
                for (first = 1; first || pick(4) == 0; first = 0) {
                    q = 1 + pick(p - 1)
                    low = 1 + pick(versions[q])
                    high = pick(6) ? versions[q] : low
                    if (first && v == installed[p]) {
                        if (!installed[q]) break
                        low = 1 + pick(installed[q])
                        high = versions[q]
                    }
                    for (; low <= high; low++) c = c " " (base[q] + low)
                }
                if (!first) hard(c)
            }
        }
    }
    for (k = 0; k < n / 4; k++) {
        p = 1 + pick(n); v = 1 + pick(versions[p])
        q = 1 + pick(n); low = 1 + pick(versions[q])
        if (p != q && !(v == installed[p] && low == installed[q])) hard("-" (base[p] + v) " -" (base[q] + low))
    }
    for (p = 1; p <= n; p++) {
        c = ""
        for (v = 1; v <= versions[p]; v++) c = c " " (base[p] + v)
        if (installed[p]) {
            soft(60 + pick(40), substr(c, 2))
            soft(5 + pick(5), "" (base[p] + installed[p]))
        }
        for (v = 1; v <= versions[p]; v++) {
            if (!installed[p]) soft(8 + pick(8) + versions[p] - v, "-" (base[p] + v))
            else if (v < versions[p]) soft(versions[p] - v, "-" (base[p] + v))
        }
    }
    for (k = 0; k < n / 10; k++) {
        p = 1 + pick(n)
        soft(200 + pick(100), "" (base[p] + versions[p]))
    }
}

# literals that imply 'at least 1 .. most of these': a sequential counter of fresh variables from next_variable on
function count_up(count, lit, most, at_least,    i, j, last, now) {
    for (i = 1; i <= count; i++) {
        for (j = 1; j <= most && j <= i; j++) {
            now[j] = next_variable++
            hard("-" now[j] " " lit[i] (j < i ? " " last[j] : ""))
            if (j > 1) hard("-" now[j] " " last[j - 1] (j < i ? " " last[j] : ""))
        }
        for (j = 1; j <= most && j <= i; j++) last[j] = now[j]
    }
    for (j = 1; j <= most; j++) at_least[j] = last[j]
}

# Who works when, over two weeks of three shifts a day: a shift that lacks somebody costs, and so does one that somebody
# dislikes, and a day that somebody wants off, mostly of a weekend. Nobody works two shifts a day, early or late after a night,
# six days in a row, or more than ten days; there is little to spare.
function roster(n,    days, p, d, s, k, c, lit, at_least, wanted, disliked) {
    days = 14
    next_variable = n * days * 4 + 1
    for (p = 0; p < n; p++) {
        for (d = 0; d < days; d++) {
            # the fourth variable of a day: this one works on it
            at_most_one((p * days + d) * 4 + 1, 3, 1)
            for (s = 1; s <= 3; s++) hard("-" ((p * days + d) * 4 + s) " " ((p * days + d) * 4 + 4))
            if (d > 0) for (s = 1; s <= 2; s++) hard("-" ((p * days + d - 1) * 4 + 3) " -" ((p * days + d) * 4 + s))
            if (d >= 5) {
                c = ""
                for (k = 0; k <= 5; k++) c = c " -" ((p * days + d - k) * 4 + 4)
                hard(substr(c, 2))
            }
            lit[d + 1] = "-" ((p * days + d) * 4 + 4)
        }
        count_up(days, lit, 4, at_least)
        hard("" at_least[4])
        disliked = 1 + pick(3)
        for (d = 0; d < days; d++) if (pick(3)) soft(1 + pick(3), "-" ((p * days + d) * 4 + disliked))
        for (k = 0; k < 3; k++) {
            d = pick(2) ? 5 + pick(2) + 7 * pick(2) : pick(days)
            soft(5 + pick(11), "-" ((p * days + d) * 4 + 4))
        }
    }
    for (d = 0; d < days; d++) {
        for (s = 1; s <= 3; s++) {
            wanted = int((s == 1 ? 0.28 : s == 2 ? 0.24 : 0.16) * n + 0.5) - (d % 7 > 4 && s == 1)
            for (p = 0; p < n; p++) lit[p + 1] = "" ((p * days + d) * 4 + s)
            count_up(n, lit, wanted, at_least)
            for (k = 1; k <= wanted; k++) soft(30 + 5 * (k == 1), "" at_least[k])
        }
    }
}

# Tests with their time, and what they cover: mostly what lies nearby, those of the whole more. What no test covers costs.
function test_selection(n,    k, r, c, t) {
    for (r = 0; r < 2 * n; r++) {
        c = ""
        for (k = 2 + pick(3); k > 0; k--) {
            t = int(r / 2) + pick(13) - 5
            c = c " " (t < 1 ? 1 : t > n ? n : t)
        }
        t = 10 * (int(r / 20) + pick(3))
        if (t > 0 && t <= n && pick(2)) c = c " " t
        soft(30 + pick(100), substr(c, 2))
    }
    for (t = 1; t <= n; t++) soft(t % 10 ? 1 + pick(60) : 40 + pick(100), "-" t)
}

# A circuit of which a few gates are broken, seen three times: its inputs, and what its last gates then give. The fewest and
# likeliest broken gates explain it.
function broken_gates(n,    inputs, seen, g, a, b, o, kind, one, other, is_broken, value, w, k) {
    inputs = 12
    for (g = 1; g <= n; g++) {
        kind[g] = pick(2)
        one[g] = inputs + g - 1 - pick(g < 20 ? inputs + g - 1 : 30)
        other[g] = inputs + g - 1 - pick(g < 20 ? inputs + g - 1 : 30)
        soft(1 + pick(6), "" g)
    }
    for (k = 0; k < 4; k++) is_broken[1 + pick(n)] = 1
    for (seen = 0; seen < 3; seen++) {
        # variables: 1 .. n say that a gate is whole, then the inputs and gates of each time
        w = n + seen * (inputs + n)
        for (g = 1; g <= inputs; g++) {
            value[g] = pick(2)
            hard((value[g] ? "" : "-") (w + g))
        }
        for (g = 1; g <= n; g++) {
            a = one[g]
            b = other[g]
            value[inputs + g] = (kind[g] ? value[a] != value[b] : value[a] && value[b]) != (g in is_broken)
            o = w + inputs + g
            if (kind[g]) {
                hard("-" g " -" o " " (w + a) " " (w + b))
                hard("-" g " -" o " -" (w + a) " -" (w + b))
                hard("-" g " " o " -" (w + a) " " (w + b))
                hard("-" g " " o " " (w + a) " -" (w + b))
            } else {
                hard("-" g " -" o " " (w + a))
                hard("-" g " -" o " " (w + b))
                hard("-" g " " o " -" (w + a) " -" (w + b))
            }
            if (g > n - n / 8) hard((value[inputs + g] ? "" : "-") o)
        }
    }
}

# what pairs of values of two variables cost
function joined(a, b,    s, t) {
    if (a == b) return
    for (s = 1; s <= 4; s++) for (t = 1; t <= 4; t++) if (pick(2)) soft(1 + pick(9), "-" (4 * a + s) " -" (4 * b + t))
}

# A network of weighted constraints: variables of four values on a ring, each joined to its neighbours and some to others.
function network(n,    i, s) {
    for (i = 0; i < n; i++) {
        hard((4 * i + 1) " " (4 * i + 2) " " (4 * i + 3) " " (4 * i + 4))
        at_most_one(4 * i + 1, 4, 1)
        for (s = 1; s <= 4; s++) if (pick(2)) soft(1 + pick(5), "-" (4 * i + s))
    }
    for (i = 0; i < n; i++) {
        joined(i, (i + 1) % n)
        if (pick(2)) joined(i, (i + 2) % n)
        if (pick(5) == 0) joined(i, pick(n))
    }
}

BEGIN {
    state = 1000 * seed + 77
    pick(2); pick(2)
    if (family == "random") random(size)
    else if (family == "set_cover") set_cover(size)
    else if (family == "vertex_cover") vertex_cover(size)
    else if (family == "package_choice") package_choice(size)
    else if (family == "timetabling") timetabling(size)
    else if (family == "diagnosis") diagnosis(size)
    else if (family == "scheduling") scheduling(size)
    else if (family == "upgrade") upgrade(size)
    else if (family == "roster") roster(size)
    else if (family == "test_selection") test_selection(size)
    else if (family == "broken_gates") broken_gates(size)
    else if (family == "network") network(size)
    else exit 1
}
