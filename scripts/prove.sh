#!/bin/sh
# Carries out check, run or lib of `rt` in a crate's folder, as `prove.sh check editing`. What is below the crate is proved and built first, and
# what has not changed is not proved again. Standard error says which crate is being proved, and how far that is.
cd "$(dirname "$0")/.." || exit 1
command=$1
named=$2
log=target/prove.log

# The named crate behind all that it depends on, a line each, lowest first.
needed() {
    awk -v named="$named" '
        function visit(crate, each, n, k) {
            if (seen[crate]++) return
            n = split(known[crate], each, " ")
            for (k = 1; k <= n; k++) if (each[k] in known) visit(each[k])
            print crate
        }
        { sub(/#.*/, "") }
        split($0, part, ":") == 2 { split(part[1], word, " "); known[word[1]] = part[2]; all = all " " word[1] }
        END {
            if (!(named in known)) { print "there is no crate " named "; crates.txt has:" all > "/dev/stderr"; exit 2 }
            visit(named)
        }' crates.txt
}

# Says what is being proved whenever that changes, as long as this script lives. Building a library empties its folder and puts the stamp there last.
# Once no library is being built for some seconds, the crate itself is: what `rt check` says of it, it says function by function.
say_progress() {
    said='' idle=0
    while kill -0 $$ 2> /dev/null; do
        at=0 line='' idle=$((idle + 1))
        for crate in $crates; do
            at=$((at + 1))
            library=crates/$crate/out/rlib
            [ "$crate" != "$named" ] && [ ! -e "$library/stamp" ] || continue
            idle=0
            [ "$library" -nt "$started" ] && line="proving $crate (crate $at of $count)"
        done
        if [ "$idle" -ge 4 ]; then
            line=$(grep '^checked ' "$log" | tail -n 1)
            [ -n "$line" ] || line="proving $named (crate $count of $count)"
        fi
        [ -z "$line" ] || [ "$line" = "$said" ] || echo "$line" >&2
        [ -z "$line" ] || said=$line
        sleep 1
    done
}

command -v rt > /dev/null || { echo "rt is not on the PATH: it is the Rattle toolchain's prover" >&2; exit 2; }
crates=$(needed) || exit 2
count=$(echo "$crates" | wc -l)
mkdir -p target
started=$(mktemp)
: > "$log"
say_progress > /dev/null &
watcher=$!
(cd "crates/$named" && exec rt "$command") > "$log" 2>&1
status=$?
kill "$watcher"
rm -f "$started"
if [ "$status" -ne 0 ]; then
    {
        grep -m 20 -E ': no proof|: error|^error|did not build' "$log" || tail -n 3 "$log"
        echo "not proved. The whole log is $log; 'rt check' in the crate's folder shows its open goals in seconds (see CONTRIBUTING.md)."
    } >&2
    exit "$status"
fi
