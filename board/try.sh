#!/bin/sh
# try.sh TARGET: tries target/board/TARGET/libhawsermole.a, and prints what was seen and measured.
#   What the archive has and needs; the calling convention (abi.c), in C99 and C++17; the firmware (play.c), whose
#   digests have to be those of the proved archive on x86-64 in target/board/x86_64.txt; stack and instructions.
set -eu
[ $# -eq 1 ] || { echo "usage: board/try.sh TARGET" >&2; exit 2; }
here=$(cd "$(dirname "$0")" && pwd)
root=$(dirname "$here")
. "$here/targets.sh"
board "$1"
dir=$root/target/board/$1
archive=$dir/libhawsermole.a
reference=$root/target/board/x86_64.txt
plugins=$root/target/board
swept=$(sed -n '1s/ .*//p' "$reference") # inputs to full tools, which come first
most_seconds=600

fail() {
    echo "$1: $2" >&2
    exit 1
}

# compile LANGUAGE SOURCE OUT FLAG..
compile() {
    language=$1 source=$2 out=$3
    shift 3
    case $language in
    c99) set -- "${compiler}gcc" -std=c99 "$@" ;;
    c++17) set -- "${compiler}g++" -x c++ -std=c++17 -fno-exceptions -fno-rtti "$@" ;;
    esac
    # shellcheck disable=SC2086
    "$@" $for_firmware -O2 -ffreestanding -fno-tree-loop-distribute-patterns -ffunction-sections -fdata-sections \
        -I"$root/include" -I"$root/tests/c" -I"$here" -I"$here/freestanding" -c "$here/$source" -o "$out"
}

strict="-Wall -Wextra -Wpedantic -Wconversion -Wshadow -Wundef -Wcast-qual -Werror"

# The parts that every firmware here is linked with.
for part in semihosting stack bytes "${boot%.c}"; do
    # shellcheck disable=SC2086
    compile c99 "$part.c" "$dir/$part.o" $strict
done

# link NAME: NAME.o becomes NAME.elf
link() {
    # shellcheck disable=SC2086
    "${compiler}gcc" $for_firmware -nostdlib -Wl,--gc-sections -Wl,-z,noexecstack -L"$here" -T"$here/$script" \
        "$dir/$1.o" "$dir/${boot%.c}.o" "$dir/semihosting.o" "$dir/stack.o" "$dir/bytes.o" "$archive" -lgcc \
        -o "$dir/$1.elf"
}

# run NAME FLAG..: its output is NAME.txt
run() {
    name=$1
    shift
    rm -f "$dir/$name.txt"
    # shellcheck disable=SC2086
    timeout $most_seconds $machine "$@" -display none -monitor none -serial none \
        -semihosting-config enable=on,chardev=out -chardev file,id=out,path="$dir/$name.txt" -kernel "$dir/$name.elf"
}

# symbols FLAG..: of the archive, in one line
symbols() {
    "${compiler}nm" "$@" "$archive" | awk 'NF >= 2 { print $NF }' | sort -u | tr '\n' ' ' | sed 's/ $//'
}

try_archive() {
    has=$(symbols -g --defined-only)
    wanted=$(nm -g --defined-only "$root/target/staticlib/libhawsermole.a" | awk 'NF == 3 { print $3 }' | grep '^hm_' |
        sort -u | tr '\n' ' ' | sed 's/ $//')
    [ "$has" = "$wanted" ] || fail "$1" "the archive has $has, and x86-64's $wanted"
    [ "$("${compiler}size" -t "$archive" | awk 'END { print $2 + $3 }')" -eq 0 ] || fail "$1" "data that is written"
    "${compiler}size" -A "$archive" | awk '$1 ~ /^\.text/ { code += $2 } $1 ~ /^\.rodata/ { tables += $2 }
        END { print "  archive: code " code " bytes, read-only tables " tables + 0 " bytes, no writable data" }'
    echo "  needs: $(symbols -u)"
    echo "  link: ${compiler}gcc $for_firmware .. libhawsermole.a -lc -lgcc"
}

try_abi() {
    for language in c99 c++17; do
        # shellcheck disable=SC2086
        compile "$language" abi.c "$dir/abi.o" $strict
        link abi
        run abi -plugin "$plugins/aligned.so" -d plugin -D "$dir/accesses" ||
            { cat "$dir/abi.txt" >&2; fail "$1" "abi.c in $language"; }
        read -r accesses unaligned <"$dir/accesses"
        if [ "$accesses" -lt 1000000 ] || [ "$unaligned" -ne 0 ]; then
            fail "$1" "of $accesses accesses to memory $unaligned aren't aligned"
        fi
        echo "  $language, $(tail -n 1 "$dir/abi.txt"); of $accesses accesses to memory none is unaligned"
    done
}

# Callers that pass half a length; and an access that isn't aligned.
try_half() {
    for half in 1 2; do
        # shellcheck disable=SC2086
        if compile c99 abi.c "$dir/half.o" $strict -DHALF=$half 2>/dev/null; then
            fail "$1" "a caller that passes half a length was compiled: HALF=$half"
        fi
    done
    compile c99 abi.c "$dir/half.o" -DHALF=1
    link half
    if run half -plugin "$plugins/aligned.so" -d plugin -D "$dir/accesses"; then
        fail "$1" "a caller that passes half a length wasn't noticed"
    fi
    grep -q '^not so: a name is as long as it is$' "$dir/half.txt" || fail "$1" "half a length, noticed elsewhere"
    # The emulated Cortex-M0 faults at it, as a board does; the others let it pass.
    grep -q ' 1$' "$dir/accesses" || [ "$(tail -n 1 "$dir/half.txt")" = fault ] ||
        fail "$1" "an access that isn't aligned wasn't noticed"
    echo "  a caller that would pass half a length: not compiled, and noticed where it is"
}

# play NAME FLAG..: compiles play.c
play() {
    name=$1
    shift
    # shellcheck disable=SC2086
    compile c99 play.c "$dir/$name.o" $strict "$@"
    link "$name"
}

# digests NAME: what must be the same on every machine
digests() { grep -v '^stack ' "$dir/$1.txt"; }

try_play() {
    play play
    run play || { tail -n 3 "$dir/play.txt" >&2; fail "$1" "the firmware failed"; }
    digests play | diff - "$reference" >"$dir/difference" || {
        head -n 4 "$dir/difference" >&2
        fail "$1" "differs from the proved archive on x86-64"
    }
    echo "  the same as on x86-64: $(grep ' inputs, ' "$reference" | tail -n 1 | sed 's/:.*//')"
    "${compiler}size" "$dir/play.elf" |
        awk 'END { print "  firmware: flash " $1 + $2 " bytes, static memory " $2 + $3 " bytes" }'
    sed -n 's/^stack /  stack of /p' "$dir/play.txt"
}

# One report of one input is changed: the line of digests after it must be the first that differs.
try_broken() {
    next=$((swept / 1000 * 1000 + 3000))
    play broken -DINPUTS=3000u -DBROKEN_AT=$((next - 500))u
    run broken || true
    first=$(digests broken | diff - "$reference" | sed -n '2s/^< \([0-9]*\) .*/\1/p')
    [ "$first" = $next ] || fail "$1" "one changed report wasn't noticed where it is: $first, not $next"
    echo "  one report of one input changed on purpose: noticed"
}

# The mean of the inputs by chance, which come after those to a full tool; the most of all.
try_instructions() {
    play counted -DINPUTS=20000u
    functions=$(symbols -g --defined-only | tr ' ' '\n' | grep -v '_size$' | sed 's/^/function=/' | paste -sd, -)
    run counted -plugin "$plugins/count.so,$functions" -d plugin -D "$dir/counts" ||
        fail "$1" "the counted firmware failed"
    awk -v swept="$swept" '
        { calls[$1]++; step = $1 ~ /^hm_(time_|wafers_)?step$/; steps += step }
        !step || steps > swept { sum[$1] += $2; summed[$1]++ }
        $2 > most[$1] { most[$1] = $2 }
        END { for (f in calls) printf "  instructions of %s: mean %.0f, most %d\n", f, sum[f] / summed[f], most[f] }
    ' "$dir/counts" | sort
    [ "$(grep -Ec '^hm_(time_|wafers_)?step ' "$dir/counts")" -eq $((swept + 20000)) ] ||
        fail "$1" "calls were missed in counting"
}

echo "$1: $words"
try_archive "$1"
try_abi "$1"
try_half "$1"
try_play "$1"
try_broken "$1"
try_instructions "$1"
