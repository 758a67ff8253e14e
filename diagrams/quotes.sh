#!/bin/sh
# Holds docs/MANUAL.md to the programs that it quotes.
#
#   diagrams/quotes.sh PROGRAM..       e.g.  diagrams/quotes.sh target/hawsermole
#
# Blocks marked `played` go to the command line: lines that begin with > are typed, the others are its output.
# Blocks marked `checked` are scripts that are tests: each must be met.
# Blocks marked `judged` name a log after > and judge, and have what is printed of it.
# Blocks marked `c` are compiled by $CC, and one with a main is linked with the library and run by $EMULATOR,
# where that is set; the block `printed` after it is what it prints.
# The block `side` has the name check to the right of its bars, line for line; the table of texts says of each how many
# of its bytes are its name, and the command line is asked for each.
set -u
[ $# -gt 0 ] || { echo "usage: $0 PROGRAM.." >&2; exit 2; }
root=$(cd "$(dirname "$0")/.." && pwd)
work=$(mktemp -d) || exit 2
trap 'rm -rf "$work"' EXIT

fail() {
    echo "quotes: $1"
    exit 1
}

# same WHAT WANTED GOT
same() {
    cmp -s "$2" "$3" && return
    diff "$2" "$3" | head -n 10
    fail "$1 is not as the manual says"
}

# Each fenced block becomes a file NN.MARK, numbered in the manual's order.
awk -v work="$work" '
    /^```/ && file == "" { file = sprintf("%s/%02d.%s", work, ++blocks, substr($0, 4)); printf "" > file; next }
    /^```/ { close(file); file = ""; next }
    file != "" { print > file }
' "$root/docs/MANUAL.md"

cat "$work"/*.played >"$work/played" 2>/dev/null || fail "no block is played"
sed -n 's/^> //p' "$work/played" >"$work/typed"
sed '/^> /d' "$work/played" >"$work/wanted"
"$@" "$work/typed" >"$work/got" || fail "the command line can't read what the manual types"
same "the command line's output" "$work/wanted" "$work/got"

checked=0
for script in "$work"/*.checked; do
    [ -e "$script" ] || fail "no block is a script that is a test"
    "$@" --check "$script" >"$work/got" || fail "a script that is a test isn't met"
    checked=$((checked + 1))
done

judged=0
for block in "$work"/*.judged; do
    [ -e "$block" ] || fail "no block is a log's verdict"
    log=$(sed -n '1s/^> judge //p' "$block")
    sed 1d "$block" >"$work/wanted"
    "$@" judge "$root/$log" >"$work/got"
    [ "$?" -le 1 ] || fail "$log can't be judged"
    same "what is said of $log" "$work/wanted" "$work/got"
    judged=$((judged + 1))
done

run=0
for source in "$work"/*.c; do
    [ -e "$source" ] || fail "no block is C"
    object=${source%.c}.o
    ${CC:-cc} -std=c99 -Wall -Wextra -pedantic -Werror -I"$root/include" -c "$source" -o "$object" ||
        fail "C doesn't compile"
    grep -q 'int main' "$source" || continue
    number=$(basename "$source" .c)
    printed=$(printf '%s/%02d.printed' "$work" $((${number#0} + 1)))
    [ -e "$printed" ] || fail "a C program has no block after it that says what it prints"
    ${CC:-cc} "$object" "$root/target/staticlib/libhawsermole.a" -o "$work/program" || fail "C doesn't link"
    ${EMULATOR:-} "$work/program" >"$work/got" || fail "a C program failed"
    same "a C program's output" "$printed" "$work/got"
    run=$((run + 1))
done
[ "$run" -gt 0 ] || fail "no C program was run"
# The rule and the function side by side.
cat "$work"/*.side >"$work/side" 2>/dev/null || fail "no block has the name check beside its rule"
sed 's/^[^│]*│ \{0,1\}//' "$work/side" >"$work/got"
sed -n '/^pub fn name_length/,/^}/p' "$root/crates/names/src/check.rt" >"$work/wanted"
same "the name check" "$work/wanted" "$work/got"
lines=$(wc -l <"$work/wanted")
[ "$lines" -le 30 ] || fail "the name check has $lines lines: more than 30"

# A row of the table of texts: what it is, its bytes (41*16 is sixteen times 41), how many of them are its name.
# CarrierNotification is answered 1, or 0 with a record of just these bytes.
sed -n '/^<!-- texts -->$/,/^$/p' "$root/docs/MANUAL.md" | awk -F ' *[|] *' -v typed="$work/texts" -v wanted="$work/wanted" '
    NF == 6 && $4 ~ /^[0-9]+$/ {
        hex = ""
        bytes = split($3, part, " ")
        for (k = 1; k <= bytes; k++) {
            gsub(/[`-]/, "", part[k])
            split(part[k], each, "*")
            for (j = 0; j < (each[2] == "" ? 1 : each[2]); j++) hex = hex each[1]
        }
        name = substr(hex, 1, 2 * $4)
        print "setup 1 0\nin 3 0 0 " (hex == "" ? "-" : hex) " -" > typed
        print "setup 0\n" ($4 == 0 ? "1 0 []" : "0 4 [5 " name " 0 1; 6 " name " 0 1; 7 " name " 0 1; 8 " name " 0 2]") > wanted
        texts++
    }
    END { print texts + 0 }
' >"$work/count"
texts=$(cat "$work/count")
[ "$texts" -ge 10 ] || fail "the table of texts has $texts rows"
"$@" "$work/texts" >"$work/got" || fail "the command line can't read the table of texts"
same "the table of texts" "$work/wanted" "$work/got"

typed=$(grep -c . "$work/typed")
echo "quotes: $typed lines played, $checked scripts checked, $judged logs judged, $run C programs run," \
    "the name check and $texts texts:" \
    "as the manual says"
