#!/bin/sh
# Checks the command line: plays every script that has an expected output beside it, and the cases below.
#
#   tests/cli/run.sh PROGRAM..       e.g.  tests/cli/run.sh target/hawsermole
#
# Whatever stands before the program's own arguments may be given, an emulator for instance. Beside NAME.script,
# NAME.expected is the plain output and NAME.explained, where it is, that of --explain.
set -u
[ $# -gt 0 ] || { echo "usage: $0 PROGRAM.." >&2; exit 2; }
root=$(cd "$(dirname "$0")/../.." && pwd)
here=$root/tests/cli
work=$(mktemp -d) || exit 2
trap 'rm -rf "$work"' EXIT
cases=0
wrong=0

# A function's own arguments hide the program's, so that it is kept in a file.
quote() { printf "'%s' " "$(printf %s "$1" | sed "s/'/'\\\\''/g")"; }
{
    printf 'exec '
    for word in "$@"; do quote "$word"; done
    printf '"$@"\n'
} >"$work/hawsermole"
hawsermole() { sh "$work/hawsermole" "$@"; }

# outcome TITLE: a case passes if the files `out`, `err` and `status` in the work folder are as `want.out` and so on.
outcome() {
    cases=$((cases + 1))
    for part in status err out; do
        if ! cmp -s "$work/want.$part" "$work/$part"; then
            wrong=$((wrong + 1))
            echo "cli: $1: $part is not as expected"
            diff "$work/want.$part" "$work/$part" | head -n 10
            return
        fi
    done
    echo "cli: $1: as expected"
}

# want STATUS [LINE..]: the expected status and lines on standard error; the expected output is the standard input.
want() {
    echo "$1" >"$work/want.status"
    shift
    for line in "$@"; do printf '%s\n' "$line"; done >"$work/want.err"
    cat >"$work/want.out"
}

# play ARGUMENT..: runs the program on the standard input.
play() {
    hawsermole "$@" >"$work/out" 2>"$work/err"
    echo $? >"$work/status"
}

# edit PART SCRIPT: keeps of `out` or `err` what is ours to say, by a script of sed's.
edit() { sed "$2" "$work/$1" >"$work/kept" && mv "$work/kept" "$work/$1"; }

scripts() {
    for script in "$1"/*.script; do
        [ -e "$script" ] || continue
        name=${script#"$root"/}
        if ! want 0 <"${script%.script}.expected"; then
            cases=$((cases + 1))
            wrong=$((wrong + 1))
            echo "cli: $name: has no expected output beside it"
            continue
        fi
        play "$script" </dev/null
        outcome "$name"
        [ -e "${script%.script}.explained" ] || continue
        want 0 <"${script%.script}.explained"
        play --explain "$script" </dev/null
        outcome "$name, explained"
    done
}

# The ways in: standard input named or not, options in any place, other ends of line.
ways_in() {
    rows=$root/examples/twelve_rows
    want 0 <"$rows.expected"
    play <"$rows.script"
    outcome "standard input"
    play - <"$rows.script"
    outcome "standard input as -"
    play -- "$rows.script" </dev/null
    outcome "a file after --"
    awk '{ printf "%s\r\n", $0 }' "$rows.script" | play
    outcome "carriage returns"
    awk '{ printf "%s%s", end, $0; end = "\n" }' "$rows.script" | play
    outcome "no end of the last line"
    awk '{ gsub(/ /, "\t\t "); print "\t " $0 " \t" }' "$rows.script" | play
    outcome "tabs and spaces"
    want 0 <"$rows.explained"
    play "$rows.script" --explain </dev/null
    outcome "options after the file"
    want 0 </dev/null
    play </dev/null
    outcome "an empty script"
}

# Bytes that aren't UTF-8, and zeros, are bytes of a name like any other: the machine refuses it.
odd_bytes() {
    printf 'setup 0\n1  none\n1  none\n1  none\n' | want 0
    printf 'setup 1 0\nBind 1 A\377\nOpen \303\050\nOpen A\000B\n' | play
    outcome "names that aren't UTF-8"
    expected="expected an input's name such as Bind, or another command (--help lists them)"
    printf 'setup 0\n' | want 2 "hawsermole: line 2: unknown word '\\xfe\\xff\\x00': $expected"
    printf 'setup 1 0\n\376\377\000\n' | play
    outcome "a word that isn't UTF-8"
}

# Of a word of three million bytes the beginning is shown, as of an option.
long_words() {
    long=$(printf '%060d' 0 | tr 0 A)
    bytes=$(printf '%03000000d' 0 | tr 0 A)
    want 2 "hawsermole: line 1: unknown word '$long.. (3000000 bytes)': expected an input's name such as Bind, or \
another command (--help lists them)" </dev/null
    printf '%s\n' "$bytes" | play
    outcome "a long word"
    want 2 "hawsermole: line 1: port: '$long.. (3000000 bytes)' is not a number from 0 to 4294967295" </dev/null
    printf 'LoadStart %s\n' "$bytes" | play
    outcome "a long number"
}

# Each line that can't be read is the second of three: the first is answered, the third is never reached.
unreadable() {
    while IFS= read -r line && IFS= read -r says; do
        line=${line#line: }
        echo 'setup 0' | want 2 "hawsermole: line 2: ${says#says: }"
        printf 'setup 1 0\n%s\nsetup 1 0\n' "$line" | play
        outcome "unreadable: $line"
    done <"$here/unreadable.txt"
    echo 'setup 0' | want 2 "hawsermole: line 5: port missing: expected LoadStart PORT [START]"
    printf '\n# blank lines and comments count\nsetup 1 0\n\nLoadStart' | play
    outcome "the number of the line"
}

# Files and options that can't be used. What the system says of a file is its own matter: only our part is compared.
wrong_calls() {
    usage='usage: hawsermole [--explain] [--keep-going] [--check] [FILE]   (hawsermole --help says more)'
    want 2 "hawsermole: unknown option '--explian'" "$usage" </dev/null
    play --explian "$root/examples/twelve_rows.script" </dev/null
    outcome "an unknown option"
    want 2 "hawsermole: more than one FILE" "$usage" </dev/null
    play one two </dev/null
    outcome "two files"
    unusable "$work/nowhere" "a file that isn't there"
    unusable "$work" "a folder as file"
}

# unusable FILE TITLE
unusable() {
    want 2 "hawsermole: $1: REASON" </dev/null
    play "$1" </dev/null
    edit err "s|^\(hawsermole: $1: \)..*|\1REASON|"
    outcome "$2"
}

prints() {
    for help in --help -h; do
        echo 'usage: hawsermole [--explain] [--keep-going] [--check] [FILE]' | want 0
        play "$help" </dev/null
        edit out '1!d'
        outcome "$help"
    done
    echo 'hawsermole N.N.N' | want 0
    play --version </dev/null
    edit out 's/[0-9][0-9]*/N/g'
    outcome "--version"
}

# A slip is told, and the tool stays: with --keep-going, and at a terminal, where `script` is one.
slips() {
    printf 'setup 0\n0  1 1 1>3\n' | want 2 "hawsermole: line 2: port missing: expected LoadStart PORT [START]" \
        "hawsermole: line 3: unknown word 'loadstart': it is written LoadStart"
    printf 'setup 1 0\nLoadStart\nloadstart 1\nLoadStart 1\n' >"$work/slips"
    play --keep-going "$work/slips" </dev/null
    outcome "slips with --keep-going"
    play --keep-going <"$work/slips"
    outcome "slips on standard input with --keep-going"
    printf 'setup 0\n' | want 2 "hawsermole: line 2: port missing: expected LoadStart PORT [START]"
    play <"$work/slips"
    outcome "a slip without"
    { cat "$work/slips"; printf '\004'; } | script -qec "sh '$work/hawsermole'" /dev/null >"$work/terminal" 2>&1
    echo $? >"$work/status"
    tr -d '\r' <"$work/terminal" | grep -c 'hawsermole: line [23]: \|setup 0$\|0  1 1 1>3$' >"$work/out"
    : >"$work/err"
    echo 4 | want 2
    outcome "slips at a terminal"
}

# The tool's bytes go to a file and come back; another length, and a damaged tool, are told.
files() {
    saved=$work/saved
    printf 'setup 0\n0  1 1 1>3\nsave 3782\n5  none\n' | want 0
    printf 'setup 1 0\nLoadStart 1\nsave %s\nLoadStart 1\n' "$saved" | play
    outcome "save"
    printf 'load sound\n0  none\n' | want 0
    printf 'load %s\nLoadDone 1\n' "$saved" | play
    outcome "load"
    { printf '\005'; tail -c +2 "$saved"; } >"$work/damaged"
    printf 'load unsound, not so: every field is in its range (ports 5, not 1 to 4 (byte 0))\n' >"$work/unsound"
    printf '1  none\nundo LINE\nend\n' | cat "$work/unsound" - | want 0
    printf 'load %s\nLoadDone 1\nundo\ndump\n' "$work/damaged" | play
    edit out 's/^undo ..*/undo LINE/'
    outcome "load of a damaged tool"
    tail -c +2 "$saved" >"$work/short"
    echo 'setup 0' | want 2 "hawsermole: line 2: FILE: it has 3781 bytes, and a tool has 3782"
    printf 'setup 1 0\nload %s\ndump\n' "$work/short" | play
    edit err 's/^\(hawsermole: line 2: \)..*\(: it has \)/\1FILE\2/'
    outcome "load of another length"
    echo 'setup 0' | want 2 "hawsermole: line 2: /no/where: REASON"
    printf 'setup 1 0\nsave /no/where\n' | play
    edit err 's|^\(hawsermole: line 2: /no/where: \)..*|\1REASON|'
    outcome "save to nowhere"
}

# The queue is part of the tool: it is saved, loaded and expected with it, and a damaged one is told.
queues() {
    saved=$work/queued
    printf 'setup 1 1\nLoadStart 1\nLoadDone 1\nIdRead 1 A\nProceedWithCarrier A 0\nMoveIn 1 1\nCarrierOut A 1\n' \
        >"$work/stored"
    hawsermole "$work/stored" >"$work/printed"
    { cat "$work/printed"; echo 'save 3782'; } | want 0
    { cat "$work/stored"; echo "save $saved"; } | play
    outcome "save of a queue"
    {
        printf 'load sound\n0  3 1 0>1\nport 1 1 0 1 - 0 0 0\nrec 41 2 1 0 0 0 0 - 3 1 1\n'
        printf 'out 41 1 1\ntime 0 0 0\nalarm 1 0 0\nend\n'
    } | want 0
    {
        echo "load $saved"
        printf 'OutStart 1\nexpect 0 3 1 0>1\ndump\nexpect port 1 ..\nexpect rec ..\nexpect out 41 1 1\n'
    } | play --check
    outcome "load of a queue, with what is expected"
    { head -c 2791 "$saved"; printf '\021'; tail -c +2793 "$saved"; } >"$work/damaged"
    range='every field is in its range (requests of CarrierOut 17, not 0 to 16 (byte 2791))'
    printf 'load unsound, not so: %s\n1  none\n' "$range" | want 0
    { echo "load $work/damaged"; echo CancelAllCarrierOut; } | play
    outcome "load of a damaged queue"
}

# So are times and predictions: the clock goes on from where it was.
predictions() {
    saved=$work/predicted
    printf 'setup 1 0 60 120\nLoadStart 1\nLoadDone 1\nIdRead 1 A\nProceedWithCarrier A 0\nOpen A\n' >"$work/visit"
    printf 'SlotMap A 3333333333333333333333333\nProceedWithCarrier A 0\nAccessStart A\nPredictedTime 900 A 1000\n' \
        >>"$work/visit"
    hawsermole "$work/visit" >"$work/printed"
    { cat "$work/printed"; echo 'save 3782'; } | want 0
    { cat "$work/visit"; echo "save $saved"; } | play
    outcome "save of a prediction"
    printf 'load sound\n11  none\n0  8 A 3>4\nundo Clock 940\n0  none\n' | want 0
    {
        echo "load $saved"
        printf 'Clock 899\nexpect 11 none\nClock 940\nexpect 0 8 A 3>4\nundo\nClock 939\nexpect 0 none\n'
    } | play --check
    outcome "load of a prediction, with what is expected"
    { head -c 3092 "$saved"; printf '\007'; tail -c +3094 "$saved"; } >"$work/damaged"
    range='every field is in its range (record 1: prediction state 7, not 1 to 6 (byte 3092))'
    printf 'load unsound, not so: %s\n1  none\n' "$range" | want 0
    { echo "load $work/damaged"; echo 'Clock 940'; } | play
    outcome "load of a damaged prediction"
}

# Wafers by name and by their bits leave the same bytes, and so does the time that they come to.
wafers() {
    sed '$d' "$work/visit" >"$work/before"
    for line in 'Wafers 900 A 90.5+9 0.25+0.0009765625' \
        'in 35 0 0 41 - 900 0 4056a0000000000040220000000000003fd00000000000003f50000000000000' \
        'PredictedTime 900 A 1000'; do
        { cat "$work/before"; echo "$line"; echo "save $work/after"; } | play
        cmp -s "$saved" "$work/after" && echo same || echo differs
    done >"$work/same"
    printf 'same\nsame\nsame\n' | want 0
    cp "$work/same" "$work/out"
    outcome "wafers and the time that they come to"
}

# A held pod is saved and loaded as well, and waits for Continue; one that is held without its alarm isn't sound.
hands() {
    saved=$work/held
    printf 'setup 0\n0  2 1 0>1\n0  1 1 1>3; 9 1 0>1\n0  none\nsave 3782\n' | want 0
    { printf 'setup 1 0\nChangeAccess 1 1\nLoadStart 1 manual\nLoadDone 1\n'; echo "save $saved"; } | play
    outcome "save of a held pod"
    printf 'load sound\n5  none\n0  9 1 1>0\nundo Continue 1\n0  1 1 3>1; 9 1 1>0\n' | want 0
    {
        echo "load $saved"
        printf 'LoadDone 1\nexpect 5 none\nContinue 1\nexpect 0 9 1 1>0\nundo\nLoadFail 1\nexpect 0 1 1 3>1; 9 1 1>0\n'
    } | play --check
    outcome "load of a held pod, with what is expected"
    { head -c 3488 "$saved"; printf '\000'; tail -c +3490 "$saved"; } >"$work/damaged"
    held='a held port is loading with its alarm on'
    where='port 1 is TRANSFER BLOCKED, loading, with its alarm off and a pod held'
    printf 'load unsound, not so: %s (%s)\n1  none\n' "$held" "$where" | want 0
    { echo "load $work/damaged"; echo 'Continue 1'; } | play
    outcome "load of a pod that is held without an alarm"
}

# Pods are counted over the run that the program has played: of a tool that was loaded only what is here is known.
pods() {
    saved=$work/pods
    printf 'setup 0\n0  1 1 1>3\n0  none\nsave 3782\npods 1 0 1 0\n' | want 0
    { printf 'setup 2 0\nLoadStart 1\nLoadDone 1\n'; echo "save $saved"; echo pods; } | play
    outcome "pods after save"
    printf 'load sound\npods - - 1 0\n0  1 2 1>3\n0  none\npods - - 2 0\nsetup 0\npods 0 0 0 0\n' | want 0
    { echo "load $saved"; printf 'pods\nLoadStart 2\nLoadDone 2\npods\nsetup 1 0\npods\n'; } | play
    outcome "pods after load"
    unknown="what came in and went out isn't known: the tool was loaded"
    printf 'load sound\n  loaded: fixed buffer tool, 2 ports\npods - - 1 0\n  %s; 1 at ports, 0 in the buffer\n' \
        "$unknown" | want 0
    { echo "load $saved"; echo pods; } | play --explain
    outcome "pods after load, explained"
    printf 'setup 0\n0  1 1 1>3\n0  none\npods 1 0 1 0\nundo LoadDone 1\npods 0 0 0 0\n' | want 1 \
        "hawsermole: line 9: expected 'pods 1 0 1 0', printed 'pods 0 0 0 0'" \
        "hawsermole: 1 of 3 lines that expect aren't met"
    {
        printf 'setup 1 0\nLoadStart 1\nLoadDone 1\npods\nexpect pods 1 0 ..\n'
        printf 'undo\nexpect undo LoadDone 1\npods\nexpect pods 1 0 1 0\n'
    } | play --check
    outcome "pods that are expected"
    no_pods="there is no tool whose pods could be counted: set one up with setup P B"
    want 2 "hawsermole: line 1: $no_pods" </dev/null
    printf 'pods\nsetup 1 0\n' | play
    outcome "pods before a set-up"
    printf 'setup 1\nsetup 0\npods 0 0 0 0\n' | want 2 "hawsermole: line 2: $no_pods"
    printf 'setup 5 0\npods\nsetup 1 0\npods\n' | play --keep-going
    outcome "pods after a refused set-up, with --keep-going"
}

# A planner's dumps: each is told by the number of the first that is the same.
backing_out() {
    echo "1 2 1 1 5 6 6 8 9 10 11 11 13 14 11 16 11" | want 0
    play "$root/examples/planner.script" </dev/null
    awk '
        /^(port|rec|map|out|time|predict|alarm) / { dump = dump $0 "\n" }
        /^end$/ {
            number++
            if (!(dump in first)) first[dump] = number
            line = line (line == "" ? "" : " ") first[dump]
            dump = ""
        }
        END { print line }
    ' "$work/out" >"$work/kept" && mv "$work/kept" "$work/out"
    outcome "the dumps of a planner who backs out"
}

# A script is a test: status 1 where a line that expects isn't met, or none expects.
checks() {
    checked=$here/checked
    want 0 <"$checked.expected"
    play --check "$checked.script" </dev/null
    outcome "a script that is a test"
    printf 'setup 0\n5  none\n' | want 1 "hawsermole: line 4: expected '0 ..', printed '5 none'" \
        "hawsermole: 1 of 2 lines that expect aren't met"
    printf 'setup 1 0\nexpect setup 0\nLoadDone 1\nexpect 0 ..\n' | play --check
    outcome "a test that fails"
    echo 'setup 0' | want 1 "hawsermole: no line expects anything"
    echo 'setup 1 0' | play --check
    outcome "a test that expects nothing"
}

# Nobody reads after the first line: the run ends quietly, long before the end of its script. A full disk is told.
lost_output() {
    awk 'BEGIN { for (i = 0; i < 100000; i++) print "dump" }' >"$work/long"
    echo end | want 0
    { hawsermole "$work/long" 2>"$work/err"; echo $? >"$work/status"; } | head -n 1 >"$work/out"
    outcome "a closed standard output"
    want 2 "hawsermole: standard output: REASON" </dev/null
    hawsermole "$work/long" >/dev/full 2>"$work/err"
    echo $? >"$work/status"
    : >"$work/out"
    edit err 's/^\(hawsermole: standard output: \)..*/\1REASON/'
    outcome "a full standard output"
}

# The script stays open: each answer must come before the next line is sent.
# A program that waits is ended after 20 seconds.
held_open() {
    mkfifo "$work/to" "$work/from"
    want 0 <"$root/examples/twelve_rows.expected"
    : >"$work/out"
    sh "$work/hawsermole" <"$work/to" >"$work/from" 2>"$work/err" &
    player=$!
    exec 3>"$work/to" 4<"$work/from"
    trap '' PIPE
    (sleep 20; kill "$player") >/dev/null 2>&1 3>&- 4<&- &
    guard=$!
    while IFS= read -r line; do
        case $line in '' | '#'*) continue ;; esac
        printf '%s\n' "$line" >&3
        IFS= read -r answer <&4 || break
        printf '%s\n' "$answer" >>"$work/out"
    done <"$root/examples/twelve_rows.script"
    exec 3>&-
    wait "$player"
    echo $? >"$work/status"
    exec 4<&-
    kill "$guard" 2>/dev/null
    trap - PIPE
    outcome "a script that is held open"
}

. "$here/logs.sh"
for folder in examples tests/cli tests/scenarios; do scripts "$root/$folder"; done
ways_in
odd_bytes
long_words
unreadable
slips
files
queues
predictions
wafers
hands
pods
backing_out
checks
wrong_calls
logs
prints
lost_output
held_open
if [ "$wrong" -ne 0 ]; then
    echo "cli: $cases cases, $wrong not as expected"
    exit 1
fi
echo "cli: $cases cases, all as expected"
