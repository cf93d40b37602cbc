#!/usr/bin/env bash
# The tests of single crates, and drivers of single layers. tests/units/CRATE/PATH.tests is the module `tests` of
# crates/CRATE/src/PATH.rt. They stand here and not in the crates, where the gate would prove each crate once more for
# its tests. Nothing is proved here: `rt try` builds one program over a copy of the crates, and runs it for each crate
# and each driver (tests/drivers).
# A line `// needs NAME..` in a file of tests names crates that the tests use and the crate itself does not.
#   tests/units/units.sh [CRATE|DRIVER:SEED..]     as in `tests/units/units.sh wcnf eliminate:2 eliminate:3`
source "$(dirname "$0")/../lib"
[ $# -gt 0 ] || set -- $(cd tests/units && ls -d */ | tr -d /) {eliminate,pieces,propagate,solver,worked_runs}:1
crates=()
runs=()
for word; do
    case $word in
        *:*) runs+=("$word") ;;
        *) crates+=("$word") ;;
    esac
done
program=$work/crates/units
cases=$work/cases
mkdir -p "$program/src" "$cases"

needs() { # CRATE: what its tests use beside what it stands on
    grep -rhE '^// needs ' "tests/units/$1" --include='*.tests' | sed 's,^// needs ,,'
}

# put_tests CRATE: into the copy, as functions that the program can call. Only `main` and a #[test] may take HostRuntime, so
# each test becomes a function of any runtime that aborts, allocates and prints.
put_tests() {
    local runtime='impl std::process::Abort + std::alloc::AllocGlobal + std::io::Print + Drop'
    local src=$work/crates/$1/src file of folder
    sed -i "/^$1:/s/\$/ $(needs "$1" | tr '\n' ' ')/" "$work/crates.txt"
    for file in $(cd "tests/units/$1" && find . -name '*.tests'); do
        of=${file%.tests}
        folder=$src/$of
        [ "$of" = ./lib ] && folder=$src
        mkdir -p "$folder"
        sed "/^#\[test\]/{
            N
            s/.*\nfn \(.*\)HostRuntime/pub fn \1$runtime/
        }" "tests/units/$1/$file" > "$folder/tests.rt"
        printf '\nmod tests;\n' >> "$src/$of.rt"
    done
    find "$src" -name '*.rt' -exec sed -i 's/^mod /pub mod /' {} +
}

# tests_of CRATE: a line for each, as wcnf::reading::tests::reads_instances(rt: HostRuntime) -> Result<(), Fail>
tests_of() {
    grep -rA 1 '^#\[test\]' "tests/units/$1" --include='*.tests' | grep '\.tests-fn' |
        sed 's,^tests/units/,,; s,\.tests-fn ,/tests/,; s,/lib/tests/,/tests/,; s, {$,,; s,/,::,g'
}

# arms CRATE: they call its tests. Its case has their names as arguments.
arms() {
    local test name call
    : > "$cases/$1"
    tests_of "$1" | while read -r test; do
        name=${test%%(*}
        call="$name(rt)"
        [[ $test == *Result* ]] || call="{ $call; Ok(()) }"
        echo "$name" >> "$cases/$1.args"
        echo "        \"$name\" => $call,"
    done
}

# put_drivers: into the copy, as a crate over all that are there
put_drivers() {
    local src=$work/crates/drivers/src file
    mkdir -p "$src"
    echo "drivers: $(cut -d : -f 1 "$work/crates.txt" | tr '\n' ' ')" >> "$work/crates.txt"
    for file in tests/drivers/*.drive tests/drivers/random.part; do
        cp "$file" "$src/$(basename "${file%.*}").rt"
    done
    rm "$src/refused.rt"
}

# run_of DRIVER:SEED ROUNDS COUNTED [FILE..]: its case, with what it prints
run_of() {
    : > "$cases/$1"
    printf '%s\n' drivers "${1%:*}" "${1#*:}" "$2" "${@:4}" > "$cases/$1.args"
    echo "ok $3" > "$cases/$1.stdout"
}

# texts NAME PROOF: files of this certificate over the four clauses of two variables
texts() {
    lines "$1.wcnf" 'h 1 2 0' 'h -1 2 0' 'h 1 -2 0' 'h -1 -2 0'
    lines "$1.result" 's UNSATISFIABLE'
    printf "$2" > "$work/$1.lrat"
}

# put_files: certificates for the driver `pieces`; `files` are their names
put_files() {
    local name
    texts rup '5 2 0 1 2 0\n6 0 5 3 4 0\n'
    texts definition '5 3 1 0 0\n6 -3 2 0 -5 1 0\n7 2 0 1 2 0\n8 0 7 3 4 0\n'
    texts blanks '\r\n5 2\t0 1 2 0 \r\n5 d 1 2 0\n\n6 0 5  3 4 0'
    for name in packages timetable; do
        cp "examples/$name".{wcnf,result,lrat} "$work"
    done
    files=({rup,definition,blanks,packages,timetable}.{wcnf,result,lrat})
}

# passes CRATE: whether all its tests end well, and so does their case
passes() {
    [ "$wanted" -gt 0 ] && [ "$ran" = "$wanted" ] && grep -q "^case=$1 run=ended status=0 " "$work/log"
}

copied "${crates[@]}" $(for crate in "${crates[@]}"; do needs "$crate"; done) ${runs:+report}
for crate in "${crates[@]}"; do put_tests "$crate"; done
data=
if [ ${#runs[@]} -gt 0 ]; then
    put_drivers
    put_files
    data=$(printf -- "--data %s " $(for file in "${files[@]}"; do echo "$file=$work/$file"; done))
fi
for run in "${runs[@]}"; do
    case $run in
        eliminate:*) run_of "$run" 1500 1504 ;;
        pieces:*) run_of "$run" 40 200 "${files[@]}" ;;
        propagate:*) run_of "$run" 200000 200000 ;;
        solver:*) run_of "$run" 300 300 ;;
        *) run_of "$run" 1 1 ;;
    esac
done
{
    for crate in "${crates[@]}"; do arms "$crate"; done
    [ ${#runs[@]} -eq 0 ] || echo '        "drivers" => drivers::drive(rt, words),'
} | sed '/^ARMS$/{
    r /dev/stdin
    d
}' tests/units/main.part > "$program/src/main.rt"
echo "units: ${crates[*]} ${runs:+drivers}" >> "$work/crates.txt"
# shellcheck disable=SC2086
(cd "$program" && "${RT:-rt}" try --seconds 1000 $data --cases "$cases") > "$work/out" 2> "$work/log"
for crate in "${crates[@]}"; do
    wanted=$(grep -rh '^#\[test\]' "tests/units/$crate" --include='*.tests' | wc -l)
    ran=$(grep -cE "^(\| )?ok $crate::" "$work/log")
    ok "$crate: $ran of $wanted tests" passes "$crate"
done
for run in "${runs[@]}"; do
    ok "the driver $run" grep -q "^case=$run run=ended status=0 .* output=expected " "$work/log"
done
# What was said since the last test that passed, where a case failed, or by the compiler
awk '/^(\| )?ok [a-z_]+::/ { said = ""; next }
    /^case=.* run=ended status=0 (runners=[12] )?(output=expected )?proved=no$/ { said = ""; next }
    { said = said $0 "\n" }
    /^case=/ { printf "%s", said; said = "" }
    END { if (said !~ /^cases=/) printf "%s", said }' "$work/log" | head -n 60
totals
