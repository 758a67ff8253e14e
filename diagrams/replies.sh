#!/bin/sh
# Holds docs/REPLIES.md to the command line: for each line of its table, for 0 and for numbers without a line, the text
# of S3F18 is built here from the page's two tables, and `reply` has to write just these bytes.
#
#   diagrams/replies.sh PROGRAM..       e.g.  diagrams/replies.sh target/hawsermole
set -u
[ $# -gt 0 ] || { echo "usage: $0 PROGRAM.." >&2; exit 2; }
root=$(cd "$(dirname "$0")/.." && pwd)
work=$(mktemp -d) || exit 2
trap 'rm -rf "$work"' EXIT

fail() {
    echo "replies: $1"
    exit 1
}

LC_ALL=C awk -F ' *[|] *' -v typed="$work/typed" -v wanted="$work/wanted" -v listed="$work/listed" '
    # "1 and 20 to 26" of the first table has this number
    function among(number, words,    part, bounds, parts, k) {
        parts = split(words, part, " and ")
        for (k = 1; k <= parts; k++) {
            if (split(part[k], bounds, " to ") == 1) bounds[2] = bounds[1]
            if (number >= bounds[1] + 0 && number <= bounds[2] + 0) return 1
        }
        return 0
    }
    function acknowledge(number,    k) {
        for (k = 1; k <= answers; k++) if (among(number, of[k])) return byte[k]
        return byte_of_others
    }
    function in_hex(text,    hex, k) {
        for (k = 1; k <= length(text); k++) hex = hex sprintf("%02x", code[substr(text, k, 1)])
        return hex
    }
    function reply(number, text,    head) {
        head = "0102" sprintf("a501%02x", acknowledge(number))
        if (number == 0) return head "0100"
        head = head "0101" "0102" sprintf("a902%04x", number > 65535 ? 65535 : number)
        return head sprintf("41%02x", length(text)) in_hex(text)
    }
    function ask(number, text) {
        print "reply " number " 200" > typed
        print "reply 0 " reply(number, text) > wanted
    }
    BEGIN { for (k = 32; k < 127; k++) code[sprintf("%c", k)] = k }
    /^[|] (Answer|Number) [|]/ { table = $2 }
    NF != 4 || $2 ~ /^(Answer|Number|---)/ { next }
    table == "Answer" && $2 == "any other" { byte_of_others = $3; next }
    table == "Answer" { sub(/[,:].*/, "", $2); of[++answers] = $2; byte[answers] = $3; next }
    { print $2, length($3) > listed }
    $2 == "other" {
        for (k = split("15 16 17 18 19 30 255 256 65535 65536 4294967295", number, " "); k > 0; k--) ask(number[k], $3)
        next
    }
    { ask($2, $3) }
    END { ask(0, "") }
' "$root/docs/REPLIES.md" || fail "the page can't be read"

{ seq 1 14; seq 20 29; echo other; } >"$work/numbers"
cut -d ' ' -f 1 "$work/listed" | cmp -s - "$work/numbers" || fail "the page doesn't list 1 to 14, 20 to 29 and other"
awk '$2 < 1 || $2 > 80 { print "replies: the text of " $1 " has " $2 " characters"; wrong = 1 } END { exit wrong }' \
    "$work/listed" || exit 1

"$@" "$work/typed" >"$work/got" || fail "the command line can't read what the page asks"
if ! cmp -s "$work/wanted" "$work/got"; then
    paste -d '\n' "$work/typed" "$work/wanted" "$work/got" | awk '
        NR % 3 == 1 { asked = $0 } NR % 3 == 2 { page = $0 }
        NR % 3 == 0 && $0 != page { print asked; print "  page     " page; print "  program  " $0 }'
    fail "the library's texts are not those of docs/REPLIES.md"
fi
echo "replies: $(grep -c . "$work/wanted") texts as docs/REPLIES.md has them"
