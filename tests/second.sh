#!/usr/bin/env bash
# The second implementation: its own tests, and a million random calls with demand 3's observer looking on, presses of run
# among them. The last line is 'second: N passed, M failed'; any failure makes the exit status non-zero.
set -u
cd "$(dirname "$0")/../second" || exit 1
export CARGO_NET_OFFLINE=true
calls=1000000
# the least notices of credits in them, and benches with segments of each kind on which the moves of run are foretold
notices=1000
foretold=1000
passed=0
failed=0
log=$(mktemp)
trap 'rm -f "$log"' EXIT

# result NAME STATUS: counts one test by the status that it ended with
result() {
    if [ "$2" -eq 0 ]; then
        passed=$((passed + 1))
    else
        echo "$1: failed"
        failed=$((failed + 1))
    fi
}

cargo test --release --locked --quiet --all-targets --no-fail-fast 2>&1 | tee "$log"
status=${PIPESTATUS[0]}
before=$failed
while read -r good bad; do
    passed=$((passed + good))
    failed=$((failed + bad))
done < <(sed -nE 's/^test result: .* ([0-9]+) passed; ([0-9]+) failed;.*/\1 \2/p' "$log")
# a test that did not build, or died, has no count
if [ "$status" -ne 0 ] && [ "$failed" -eq "$before" ]; then
    result "cargo test" "$status"
fi

# every call and every refusal is met, credits come to the whole grant and never past it, profiles have both lengths, each
# loopback opens beside one with another grant, read meets reserved bits at 1 and drops, presses make every move, and messages
# in hand are discarded. Everything is built in one profile, so once.
cargo run --release --locked --quiet --bin demand3 -- "$calls" | tee "$log"
[ "${PIPESTATUS[0]}" -eq 0 ] && grep -q "^mismatch=none .* discards=[1-9].* never=none gaps=none$" "$log"
result demand3 $?

# field NAME: its number in the line that demand3 wrote
field() {
    sed -nE "s/^mismatch=none .* $1=([0-9]+) .*/\1/p" "$log"
}

# most credits come back inside data packets; notices are rare, and there are some all the same
[ "$(field carried)" -gt "$(field noticed)" ] && [ "$(($(field credit) + $(field move-credit)))" -ge "$notices" ]
result "credits inside data packets" $?

# every list came to rest, within the bound and with no message in hand
[ "$(field lists)" -gt 0 ] && [ "$(field rests)" -eq "$(field lists)" ]
result "all lists at rest" $?

# on benches with nothing under way presses made the moves foretold, with segments of each kind in hand
enough=0
for kind in loopback flow-control no-flow-control reply together; do
    [ "$(field "exact-$kind")" -ge "$foretold" ] || enough=1
done
result "moves foretold" "$enough"

echo "second: $passed passed, $failed failed"
[ "$failed" -eq 0 ]
