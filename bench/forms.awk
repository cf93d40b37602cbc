# An instance in the form of the MaxSAT Evaluation 2022, as other solvers read it.
#   awk -v form=wcnf -f bench/forms.awk FILE    the older form, with a header
#   awk -v form=smt -f bench/forms.awk FILE     SMT-LIB 2 with soft assertions
#   awk -v form=lp -f bench/forms.awk FILE      an integer program in CPLEX's LP format, where rI is 1 if clause I is falsified
# Weights are below 2^53 together.
$1 == "c" || NF == 0 { next }

{
    lits = ""
    needed = 1
    split("", seen)
    for (i = 2; i < NF; i++) {
        variable = $i < 0 ? -$i : $i
        if (variable > variables) variables = variable
        if (form == "lp") {
            if ($i in seen) continue
            seen[$i] = 1
            if ((-$i) in seen) next
            if ($i < 0) needed--
        }
        if (form == "smt") lits = lits ($i < 0 ? " (not x" variable ")" : " x" variable)
        else if (form == "lp") lits = lits ($i < 0 ? " - x" : " + x") variable
        else lits = lits " " $i
    }
    count++
    clause[count] = lits
    bound[count] = needed
    weight[count] = $1
    if ($1 != "h") top += $1
}

# an integer program: lines are kept short, since readers of this format limit them
function print_program(  i) {
    print "Minimize\n cost: 0 x1"
    for (i = 1; i <= count; i++) if (weight[i] != "h") print " + " weight[i] " r" i
    print "Subject To"
    for (i = 1; i <= count; i++) print " c" i ":" clause[i] (weight[i] == "h" ? "" : " + r" i) " >= " bound[i]
    print "Binary"
    for (i = 1; i <= variables; i++) print " x" i
    for (i = 1; i <= count; i++) if (weight[i] != "h") print " r" i
    print "End"
}

function smt(c) { return c == "" ? "false" : "(or" c ")" }

END {
    if (form == "lp") {
        print_program()
        exit
    }
    top++
    if (form == "smt") for (i = 1; i <= variables; i++) print "(declare-const x" i " Bool)"
    else printf "p wcnf %d %d %d\n", variables, count, top
    for (i = 1; i <= count; i++) {
        if (form != "smt") print (weight[i] == "h" ? top : weight[i]) clause[i] " 0"
        else if (weight[i] == "h") print "(assert " smt(clause[i]) ")"
        else print "(assert-soft " smt(clause[i]) " :weight " weight[i] ")"
    }
    if (form == "smt") print "(check-sat)\n(get-objectives)"
}
