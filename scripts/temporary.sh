#!/bin/sh
# Prints the folder for temporary files: TMPDIR where it is set, else memory where that is fit for it, else the usual folder.
#
# `rt` keeps the work of checks in the crates' out/, and writes there what a must-fail edit changes and what is proved of it, some 30 MB each. It also
# runs the built programs from there, as another user: so it is the folder itself, which all users may enter, and not one below it, and none from which
# nothing may be run.
memory=/dev/shm
need=4000000 # KB: several checks at a time, and what each of them holds besides

if [ -n "$TMPDIR" ]; then
    echo "$TMPDIR"
    exit
fi

# Whether memory has the room: the folder, and the machine behind it.
roomy() {
    folder=$(df -Pk "$memory" | awk 'NR == 2 { print $4 }')
    machine=$(awk '$1 == "MemAvailable:" { print $2 }' /proc/meminfo)
    [ "${folder:-0}" -ge "$need" ] && [ "${machine:-0}" -ge "$need" ]
}

# Whether a program that is put there runs.
runs_programs() {
    program=$(mktemp "$memory/temporary.XXXXXX") || return 1
    printf '#!/bin/sh\n' > "$program" && chmod u+x "$program" && "$program"
    status=$?
    rm -f "$program"
    return $status
}

if { [ -d "$memory" ] && roomy && runs_programs; } 2> /dev/null; then
    echo "$memory"
else
    echo /tmp
fi
