#!/bin/sh
# Prints how many bytes of stack the calls need, for the heaviest study and a small one. Fails where a call needs more than its limit.
cd "$(dirname "$0")/.." || exit 1
status=0
scripts/compile.sh stack -pthread || exit 1
for study in studies/heaviest.hex studies/case_a.hex; do
    echo "Bytes of stack for $study"
    scripts/bytes.sh "$study" | harness/target/stack || status=1
done
exit "$status"
