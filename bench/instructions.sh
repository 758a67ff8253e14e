#!/usr/bin/env bash
# Instructions of one input to the proved machine (one call of hm_step, all that it calls included):
# the mean over a mix, the worst input, and how both grow with the number of live carriers; those of an input that brings
# the clock, hm_time_step, and of one that brings wafers, hm_wafers_step; those of the name check, hm_name, for texts of
# some lengths; those of one frame of a panel, hm_waiting; and those of the bridge, hm_secs_step, for messages of some
# kinds.
#
#   bench/instructions.sh [PROGRAM]    the release build of this folder; target/release/bench if none is given
#
# On an x86-64 machine valgrind's callgrind counts them. Elsewhere, or where valgrind is missing, qemu-x86_64 does,
# with the plugin count.c. Where there is neither, it says so and ends without a failure.
set -euo pipefail
here=$(cd "$(dirname "$0")" && pwd)
program=${1:-$here/target/${CARGO_BUILD_TARGET:+$CARGO_BUILD_TARGET/}release/bench}
rows=36
function=hm_step
work=$(mktemp -d)
trap 'rm -rf "$work"' EXIT

choose_counter() {
    if [ "$(uname -m)" = x86_64 ] && command -v valgrind >/dev/null; then
        counter=callgrind
    elif command -v qemu-x86_64 >/dev/null &&
        gcc -O2 -shared -fPIC -o "$work/count.so" "$here/count.c" 2>"$work/gcc"; then
        counter=qemu
    else
        echo "no instructions counted: neither valgrind on an x86-64 machine, nor qemu-x86_64 and gcc for its plugin"
        exit 0
    fi
}

under_callgrind() {
    valgrind --tool=callgrind --toggle-collect=$function --dump-after=$function --combine-dumps=yes \
        --callgrind-out-file="$work/out" "$program" "$@" >"$work/labels" 2>"$work/errors"
    # One part for each call, and what is left at the end.
    awk '/^summary:/ { print $2 }' "$work/out" | sed '$d' >"$work/counts"
}

under_qemu() {
    qemu-x86_64 -plugin "$work/count.so,function=$function" -d plugin -D "$work/counts" "$program" "$@" \
        >"$work/labels" 2>"$work/errors"
}

# Plays what bench is told to, and prints a line for each call. For hm_step:
# COUNT CARRIERS NUMBER ANSWER NAMES PORT VALUE NAME CODES
counted() {
    local calls
    "under_$counter" "$@" || { cat "$work/errors" >&2; echo "bench $* failed" >&2; exit 1; }
    calls=$(wc -l <"$work/labels")
    if [ "$calls" -eq 0 ] || [ "$calls" -ne "$(wc -l <"$work/counts")" ]; then
        echo "bench $*: $calls calls, but $(wc -l <"$work/counts") counts by $counter" >&2
        exit 1
    fi
    paste -d ' ' "$work/counts" "$work/labels"
}

mean() { awk '{ sum += $1 } END { printf "%.0f", sum / NR }'; }

most() { sort -n | tail -n 1 | cut -d ' ' -f 1; }

print_mean() {
    counted play 5000 27 >"$work/mix"
    echo "instructions of one input, P = 4, B = 16, counted by $counter"
    echo
    echo "5000 mixed inputs, some 27 live carriers"
    printf '  mean %9s\n' "$(mean <"$work/mix")"
    printf '  most %9s\n' "$(most <"$work/mix")"
}

worst_of() { sort -n "$1" | tail -n 1; }

# Rows 1 to 3, 11, 12, 18, 27 and 28 can't be accepted with 36 records, so fewer are tried as well; row 30 is never
# refused. The row that takes the most is then searched further. Rows 31 to 35 are hm_time_step's and
# hm_wafers_step's.
print_worst() {
    local carriers row
    for carriers in 32 33 34 35 36; do
        counted search $((rows * 12)) "$carriers"
    done >"$work/search"
    read -r _ carriers row _ <<<"$(worst_of "$work/search")"
    counted play 1000 "$carriers" "$row" >>"$work/search"
    echo
    echo "the most for each row, over $(wc -l <"$work/search") states with 32 to 36 live carriers"
    awk '
        { kind = $4 == 0 ? "accepted" : "refused" }
        $1 > top[$3, kind] { top[$3, kind] = $1 }
        END {
            printf "  %3s %9s %9s\n", "row", "accepted", "refused"
            for (row = 1; row <= 36; row++)
                if (row < 31 || row > 35) printf "  %3d %9s %9s\n", row, top[row, "accepted"], top[row, "refused"]
        }' "$work/search"
    echo
    worst_of "$work/search" | awk '{
        printf "the worst input %s\n", $1
        printf "  row %s answered %s, %s live carriers, names of the kind %s, ", $3, $4, $2, $5
        printf "port %s, value %s, name %s, %s codes\n", $6, $7, $8, $9 }'
    counted unsound $((rows * 12)) 36 >"$work/unsound"
    echo "the most where the state isn't sound $(most <"$work/unsound")"
}

print_growth() {
    local carriers input
    echo
    echo "by the number of live carriers (that of the mix stays within two of it)"
    printf '  %8s %9s %13s %9s %11s %9s\n' carriers 'mix, mean' ChangeAccess IdRead UnloadDone 'any, most'
    for carriers in 0 4 8 12 16 20 24 28 32 36; do
        counted play 300 "$carriers" >"$work/now"
        printf '  %8s %9s' "$carriers" "$(mean <"$work/now")"
        counted search $((rows * 4)) "$carriers" >"$work/any"
        for input in ChangeAccess:13 IdRead:9 UnloadDone:11; do
            counted play 6 "$carriers" "${input%:*}" >"$work/now"
            printf " %${input#*:}s" "$(most <"$work/now")"
            cat "$work/now" >>"$work/any"
        done
        printf ' %9s\n' "$(most <"$work/any")"
    done
}

# print_clocked WHAT FUNCTION FIRST LAST WORDS
print_clocked() {
    local carriers function=$2
    for carriers in 4 20; do
        counted "$1" 400 "$carriers"
    done >"$work/clocked"
    echo
    echo "an input that brings $5, without a buffer, 4 and 20 live carriers, $(wc -l <"$work/clocked") states"
    awk -v first="$3" -v last="$4" '
        { kind = $4 == 0 ? "accepted" : "refused"; sum[$3, kind] += $1; count[$3, kind]++ }
        $1 > top[$3, kind] { top[$3, kind] = $1 }
        END {
            printf "  %3s %9s %9s %9s %9s\n", "row", "accepted,", "most", "refused,", "most"
            for (row = first; row <= last; row++)
                printf "  %3d %9.0f %9s %9.0f %9s\n", row, sum[row, "accepted"] / count[row, "accepted"],
                    top[row, "accepted"], sum[row, "refused"] / count[row, "refused"], top[row, "refused"]
        }' "$work/clocked"
}

print_names() {
    local count bytes name kind function=hm_name
    echo
    echo "the name check alone"
    counted names >"$work/now"
    while read -r count bytes name kind; do
        printf '  %4s   %2s bytes, name of %2s: %s\n' "$count" "$bytes" "$name" "$kind"
    done <"$work/now"
}

print_frame() {
    local instructions records read function=hm_waiting
    echo
    echo "one frame of a panel"
    counted frame >"$work/frames"
    while read -r instructions records read; do
        printf '  %2s records, %2s read %9s\n' "$records" "$read" "$instructions"
    done <"$work/frames"
}

print_messages() {
    local count bytes items answer carriers kind function=hm_secs_step
    echo
    echo "one message from the host bridge, to no tool and to one that accepts a Bind"
    counted messages >"$work/now"
    while read -r count bytes items answer carriers kind; do
        printf '  %6s   %5s bytes, %3s items, answered %2s, %2s live carriers: %s\n' \
            "$count" "$bytes" "$items" "$answer" "$carriers" "$kind"
    done <"$work/now"
    printf '  most %6s\n' "$(most <"$work/now")"
}

if [ ! -x "$program" ]; then
    echo "no program $program: build it first (cargo build --release in bench)" >&2
    exit 2
fi
choose_counter
print_mean
print_worst
print_growth
print_clocked timed hm_time_step 31 34 'the clock'
print_clocked wafers hm_wafers_step 35 35 'the clock and wafers'
print_names
print_frame
print_messages
