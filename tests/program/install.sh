#!/usr/bin/env bash
# `make install` puts the program, its manual page, python/wmax.py and the converters in place, and pip takes python/; the page
# has each command, option and status of the help, and each fault of docs/FAULTS.md, which has all that the program can print.
source "$(dirname "$0")/../lib"

ok 'make install' make -s install DESTDIR="$work/root" PREFIX=/usr > /dev/null
page=$work/root/usr/share/man/man1/wmax.1
ok 'the program' cmp -s wmax "$work/root/usr/bin/wmax"
ok 'it can be run' [ "$("$work/root/usr/bin/wmax" --version)" = "$("$wmax" --version)" ]

# What is installed works without the checkout, by names alone.
printf '%s\n' 'c 1 = tea' 'h 1 2 0' '3 -1 0' '4 -2 0' > "$work/a.wcnf"
module=$(find "$work/root" -name wmax.py)
ok 'the module' cmp -s python/wmax.py "$module"
ok 'the converters' [ "$(cd "$work/root/usr/bin" && echo *)" = 'wmax wmax-older-form wmax-result-of-others' ]
# installed WORD..: a command with what is installed alone
installed() {
    (cd "$work" && env -u WMAX PATH="$work/root/usr/bin:$PATH" PYTHONDONTWRITEBYTECODE=1 "$@")
}
ok 'a converter' [ "$(installed wmax-older-form a.wcnf | head -n 1)" = 'p wcnf 2 3 8' ]
printf 's OPTIMUM FOUND\no 3\nv 1 -2\n' > "$work/said"
ok 'the other converter' [ "$(installed wmax-result-of-others a.wcnf said)" = $'o 3\ns OPTIMUM FOUND\nv 10' ]
out=$(installed env PYTHONPATH="${module%/*}" python3 -m wmax a.wcnf)
ok 'the module solves a file' [ "$? $(head -n 2 <<< "$out")" = $'30 It costs 3, and nothing costs less, which was checked.\ntrue: tea' ]
ok 'make says where the module goes' [ "$(make -sn install PREFIX=/opt/x | grep -c '"/opt/x/lib/python3')" = 1 ]
ok 'another folder for it' [ "$(make -sn install PYTHON_FOLDER=/opt/y | grep -c '"/opt/y/wmax.py"')" = 1 ]
ok 'its version' grep -qx "version = \"$("$wmax" --version | cut -d ' ' -f 2)\"" python/pyproject.toml
if python3 -c 'import pip' 2> /dev/null; then
    cp -r python "$work/package"
    ok 'pip install' env PIP_ROOT_USER_ACTION=ignore python3 -m pip --disable-pip-version-check install -q --no-index --target "$work/site" "$work/package"
    ok 'pip: the module' cmp -s python/wmax.py "$work/site/wmax.py"
    out=$(installed env PYTHONPATH="$work/site" python3 -m wmax a.wcnf)
    ok 'pip: it solves a file' [ "$? $(head -n 1 <<< "$out")" = '30 It costs 3, and nothing costs less, which was checked.' ]
else
    echo 'no pip: not tried'
fi

for command in solve check lower explain encode; do
    ok "the page has $command" grep -qx ".SH wmax $command" "$page"
    for option in $("$wmax" $command --help | grep -oE '^ +(-., )?--[a-z]+' | grep -oE '[-]-[a-z]+'); do
        ok "the page has $command $option" grep -qF "${option//-/\\-}" "$page"
    done
done
tab=$'\t'
for status in 30 20 10 0 1 2 3 141; do
    ok "the page has status $status" grep -qx "$status${tab}T{" "$page"
done
known=$(grep '^| `' docs/FAULTS.md | cut -d '|' -f 2 | tr -d '`' | awk '{ print $1 }')
for fault in $known; do
    ok "the page has $fault" grep -qE "^$fault( NAME)?${tab}T\{\$" <(sed -n '/^\.SH FAULTS$/,$p' "$page")
done
printed=$({
    sed -n '/^pub enum FaultKind/,/^}/p' crates/wcnf/src/faults.rt | grep -oE '^    [A-Z][A-Za-z]+'
    grep -oE 'b"NO [A-Za-z]+ "' crates/report_text/src/printing.rt | cut -d ' ' -f 2 | grep -vx Text
    printf '%s\n' Output ProofOutput
} | tr -d ' ')
for fault in $printed; do ok "docs/FAULTS.md has $fault" grep -qx "$fault" <<< "$known"; done
ok 'faults are printed' [ "$(wc -w <<< "$printed")" -gt 25 ]
ok 'the page sends nobody elsewhere for faults' [ -z "$(grep -E '(README|FAULTS\.md).* (has|have) (the others|all)\.' "$page")" ]
ok 'each table is ended' [ "$(grep -cx '\.TS' "$page")" -gt 5 -a "$(grep -cx '\.TS' "$page")" = "$(grep -cx '\.TE' "$page")" ]
ok 'what follows a table is a paragraph of its own' [ -z "$(grep -A 1 -x '\.TE' "$page" | grep -vxE '\.TE|\.PP|--')" ]
if command -v man > /dev/null; then
    ok 'man has nothing to say against it' [ -z "$(man --warnings -l "$page" 2>&1 > /dev/null)" ]
    ok 'man shows it' [ "$(MANWIDTH=100 man -l "$page" 2> /dev/null | grep -cE '^ +wmax (solve|check|lower|explain|encode) ')" -ge 8 ]
fi
totals
