# Sourced by the scripts that time `time_programs`: how long it takes for programs of 64 and of 512 slots. Each time is the
# median of RUNS runs (5, if not set), taken in turns, and is of the whole process.
top=$(cd "$(dirname "${BASH_SOURCE[0]}")/.." && pwd)
program=$top/crates/time_bench/out/time_bench
runs=${RUNS:-5}
room=$(mktemp -d)
trap 'rm -rf "$room"' EXIT

# Prints how many microseconds a command takes.
microseconds() {
    local from=${EPOCHREALTIME/[.,]/} to
    "$@" >"$room/out"
    to=${EPOCHREALTIME/[.,]/}
    echo $((to - from))
}

median() { sort -n "$room/$1" | sed -n "$(((runs + 1) / 2))p"; }

# Sets `small` and `large` to the microseconds for 64 and 512 slots.
time_both() {
    "$top/checks/build" time_bench programs "$1" 64
    for ((run = 0; run < runs; run++)); do
        microseconds "$program" programs "$1" 64 >>"$room/64"
        microseconds "$program" programs "$1" 512 >>"$room/512"
    done
    small=$(median 64)
    large=$(median 512)
}

show() { awk -v what="$1" -v time="$2" 'BEGIN { printf "%-30s %9.1f ms\n", what, time / 1000 }'; }

show_growth() { awk -v a="$large" -v b="$small" 'BEGIN { printf "growth from 64 to 512 slots: %.1f times\n", a / b }'; }

# Prints a program of so many slots of straight code, one instruction per line.
text() {
    awk -v slots="$1" 'BEGIN {
        for (i = 0; i < slots - 1; i++)
            print i % 4 == 0 ? "mov64 r0, 0" : i % 4 == 1 ? "add64 r0, 1" : i % 4 == 2 ? "stxdw [r10-8], r0" : "ldxdw r1, [r10-8]"
        print "exit"
    }'
}
