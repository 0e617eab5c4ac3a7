#!/usr/bin/env bash
# Proves every crate, tries the wrong programs and runs each program on its stored input, by `rt ci`. The last line is
# 'crates: N passed, M failed'; any failure makes the exit status non-zero.
set -u
. "$(dirname "$(readlink -f "$0")")/../scripts/common.sh" || exit 1
cd "$root" || exit 1
log=$(mktemp)
began=$(mktemp)
trap 'rm -f "$log" "$began"' EXIT
passed=0
failed=0

locked rt ci 2>&1 | tee "$log"
status=${PIPESTATUS[0]}
if [[ $(tail -n 1 "$log") =~ ([0-9]+)\ passed,\ ([0-9]+)\ failed ]]; then
    passed=${BASH_REMATCH[1]}
    failed=${BASH_REMATCH[2]}
fi
# the programs are built now: play does not ask for them once more
if [ "$status" -eq 0 ]; then
    mkdir -p target/since
    for program in paper vectors; do
        if taken "$program" "target/bin/$program"; then
            touch -r "$began" "target/since/$program"
        else
            failed=$((failed + 1))
        fi
    done
fi
# a run that died has no count
if [ "$failed" -eq 0 ] && { [ "$status" -ne 0 ] || [ "$passed" -eq 0 ]; }; then
    echo "rt ci: exit status $status"
    failed=1
fi
# a wrong program is to be refused by a proof, and for what it means: one that is refused otherwise shows nothing, though rt ci
# passes it
void() {
    if [ "$1" -ne 0 ]; then
        echo "must-fail edits: $1 $2"
        failed=$((failed + $1))
    fi
}
bad=$(sed -n 's/^rt: ok; .*, \([0-9]*\) bad.*/\1/p' "$log")
void "${bad:-0}" "cannot be applied or read"
void "$(grep -c 'must-fail .*: refused, as it must be: \(note: \)\?\(\./\)\?specs/' "$log")" "stop at their own definition"
void "$(grep -c 'must-fail .*: refused, as it must be (only because a proof file names' "$log")" "are refused for a missing name"
echo "crates: $passed passed, $failed failed"
[ "$failed" -eq 0 ]
