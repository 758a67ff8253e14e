#!/bin/sh
# What hawsermole.h says of the archive, checked on the archive itself, and its size.
#   CC=gcc tests/c/archive.sh libhawsermole.a
set -eu
archive=$1
cc=${CC:-cc}
nm=$($cc -print-prog-name=nm)
size=$($cc -print-prog-name=size)
shared=$(mktemp)
trap 'rm -f "$shared"' EXIT
failed=0

# expect WHAT FOUND WANTED
expect() {
    if [ "$2" = "$3" ]; then
        echo "archive: $1: ${2:-none}"
    else
        echo "archive: $1: found '$2', expected '$3'" >&2
        failed=1
    fi
}

# one_line: words of standard input, sorted, on one line
one_line() { sort -u | tr '\n' ' ' | sed 's/ $//'; }

defined=$("$nm" -g --defined-only "$archive" | awk 'NF == 3 { print $3 }' | sort -u)
needed=$("$nm" -u "$archive" | awk '$1 == "U" { print $2 }' | sort -u)

expect 'functions' "$(echo "$defined" | grep '^hm_' | one_line)" \
    "hm_judge hm_name hm_reply hm_reports_size hm_secs_at hm_secs_exchange hm_secs_step hm_setup hm_sound hm_step \
hm_time_step hm_tool_size hm_version hm_wafers_step hm_waiting"

# A freestanding compiler may ask for these three of its own accord; anything else would be a new need of the firmware.
beyond=$(for name in $needed; do
    echo "$defined" | grep -qxF "$name" || echo "$name"
done | grep -vxE 'memcpy|memset|memcmp' | one_line || true)
expect 'needs beyond memcpy, memset and memcmp' "$beyond" ''

# Nothing writable: no state between calls, so that different tools may be used at the same time.
expect 'bytes of writable data' "$("$size" -t "$archive" | awk 'END { print $2 + $3 }')" 0

# The linker refuses here whatever isn't position independent.
$cc -shared -Wl,-z,text -Wl,-z,defs -Wl,--whole-archive "$archive" -Wl,--no-whole-archive -o "$shared" || failed=1

"$size" -A "$archive" | awk '$1 ~ /^\.text/ { code += $2 } $1 ~ /^\.rodata/ { tables += $2 }
    END { print "archive: code " code " bytes, read-only tables " tables " bytes" }'
exit $failed
