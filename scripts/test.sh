#!/bin/sh
# Every test of the repository: the proofs and must-fail edits, then the built program and library from outside. The last line is the verdict.
cd "$(dirname "$0")/.." || exit 1
TMPDIR=$(scripts/temporary.sh)
export TMPDIR
program=crates/report/out/report
log=$(mktemp)
trap 'rm -f "$log" "$log.status"' EXIT

# Ends with a verdict where the gate of the proofs gives none.
stop() {
    echo "$1"
    echo "0 passed, 1 failed"
    exit 1
}

# The gate of the proofs: whatever it refuses fails here, files that are not laid out too.
{ rt ci 2>&1; echo $? > "$log.status"; } | tee "$log"
verdict=$(tail -n 1 "$log")
echo "$verdict" | grep -qxE '[0-9]+ passed, [0-9]+ failed' || stop "rt ci ended with no verdict"
passed=${verdict%% passed, *}
failed=${verdict##* passed, }
failed=${failed%% failed}

# It passes an edit that cannot be applied or read, and only counts it; here each of them fails. What it counts stands on its line 'rt: ok', which it
# prints where nothing failed.
if [ "$failed" -eq 0 ]; then
    [ "$(cat "$log.status")" -eq 0 ] || stop "rt ci failed, and says that nothing did"
    grep -q '^rt: ok' "$log" || stop "rt ci passed without its line 'rt: ok'"
    bad=$(awk '/^rt: ok/ { for (rest = $0; match(rest, /[0-9]+ +bad/); rest = substr(rest, RSTART + RLENGTH)) n += substr(rest, RSTART) } END { print n + 0 }' "$log")
    if [ "$bad" -gt 0 ]; then
        echo "must-fail edits that show nothing: $bad, named above as BAD EDIT"
        failed=$((failed + bad))
    fi
fi

# Counts a check by the status of its command.
check() {
    name=$1
    shift
    if "$@"; then
        passed=$((passed + 1))
        echo "$name: passed"
    else
        failed=$((failed + 1))
        echo "$name: FAILED"
    fi
}

# Each study of the folder, through the program, against the report that is expected of it.
studies_have_their_reports() {
    for study in studies/*.hex; do
        scripts/bytes.sh "$study" | $program | cmp - "${study%.hex}.report" || return 1
    done
}

# Input that comes in pieces, none at all, a byte too many behind the longest study, and outputs that take nothing.
program_at_its_edges() {
    bytes=$(mktemp)
    scripts/bytes.sh studies/heaviest.hex > "$bytes"
    (head -c 1000 "$bytes"; sleep 0.2; tail -c +1001 "$bytes") | $program | cmp - studies/heaviest.report &&
        test "$($program < /dev/null)" = "REFUSED 1 short" &&
        test "$( (cat "$bytes"; echo) | $program)" = "REFUSED 15 left over" &&
        test "$( (cat "$bytes"; head -c 100000 /dev/zero) | $program)" = "REFUSED 15 left over" &&
        { timeout 10 $program < "$bytes" > /dev/full; test $? -ne 124; } &&
        { timeout 10 $program < "$bytes" >&-; test $? -ne 124; }
    status=$?
    rm -f "$bytes"
    return $status
}

calls_from_c() {
    scripts/compile.sh call && harness/target/call | cmp - harness/c/call.out
}

comparison_from_rust() {
    (cd harness && cargo test --offline --quiet)
}

# `rt ci` keeps no program and no library: both are built here, and what they stand on is proved once more where no check has kept that.
rm -f $program crates/exports/out/libexports.a
check "the program" scripts/prove.sh run report < /dev/null
check "studies through the program" studies_have_their_reports
check "the program at its edges" program_at_its_edges
check "the library for C and Rust" scripts/prove.sh lib exports
check "calls from C" calls_from_c
check "the stack that calls need" scripts/stack.sh
check "comparison with a second implementation" comparison_from_rust
echo "$passed passed, $failed failed"
test "$failed" -eq 0
