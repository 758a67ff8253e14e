# Logs, judged and written; tests/cli/run.sh reads this. Beside examples/NAME.log, NAME.judged is what judge prints.

# status_of FILE: the exit status that belongs to the last line of what judge printed.
status_of() {
    case $(tail -n 1 "$1") in
    agrees) echo 0 ;;
    'entry '*) echo 1 ;;
    'refused 27' | 'refused 28' | 'refused 29') echo 2 ;;
    *) echo none ;;
    esac
}

judged_examples() {
    for log in "$root"/examples/*.log; do
        want "$(status_of "${log%.log}.judged")" <"${log%.log}.judged"
        play judge "$log" </dev/null
        outcome "judge ${log#"$root"/}"
        play judge - <"$log"
        outcome "judge - of ${log#"$root"/}"
    done
}

# What log writes, the judge agrees with; the first example is document 01's run to check by hand.
written() {
    echo 'log 12 222' | want 0
    play log "$root/examples/twelve_rows.script" "$work/twelve.log" </dev/null
    outcome "log to a file"
    want 0 <"$root/examples/log_agrees.log"
    cp "$work/twelve.log" "$work/out"
    outcome "log writes the example"
    play log "$root/examples/twelve_rows.script" </dev/null
    outcome "log to standard output"
    play log - <"$root/examples/twelve_rows.script"
    outcome "log of standard input"
    # Document 01's CarrierOut moves the carrier at once: without OutStart and OutDone it is the same round trip.
    for script in fixed_buffer_round_trip internal_buffer_round_trip; do
        grep -v '^dump\|^state\|^Out' "$root/examples/$script.script" >"$work/inputs"
        hawsermole log "$work/inputs" "$work/trip.log" >"$work/printed"
        echo 'agrees' | want 0
        play judge "$work/trip.log" </dev/null
        edit out '$!d'
        outcome "log of $script"
    done
}

# In AUTO and MANUAL, by hand and by a vehicle: document 01 doesn't ask who starts, and all loads are the same there.
hands_in_logs() {
    for access in 0 1; do
        for start in manual automatic; do
            printf 'setup 1 0\nChangeAccess 1 %s\nLoadStart 1 %s\nLoadDone 1\nIdReadFailed 1\n' "$access" "$start"
        done >"$work/starts"
        head -n 5 "$work/starts" >"$work/by_hand"
        tail -n 5 "$work/starts" >"$work/by_vehicle"
        for script in by_hand by_vehicle; do
            hawsermole log "$work/$script" "$work/$script.log" >"$work/printed"
            hawsermole judge "$work/$script.log" | tail -n 1
        done >"$work/out"
        cmp "$work/by_hand.log" "$work/by_vehicle.log" >"$work/differ"
        sed 's/.*: byte \([0-9]*\),.*/byte \1/' "$work/differ" >>"$work/out"
        # the second number of LoadStart alone differs, after the head and ChangeAccess with its report, if it has one
        printf 'agrees\nagrees\nbyte %s\n' "$((16 + 4 * access))" | want 0
        : >"$work/err"
        echo 0 >"$work/status"
        outcome "logs of loads at a port whose access mode is $access"
    done
}

# unusable_log WORDS.. TITLE is in `title`: a file that can't be read or written is told.
unusable_log() {
    want 2 "hawsermole: $1: REASON" </dev/null
    shift
    play "$@" </dev/null
    edit err 's|^\(hawsermole: [^:]*: \)..*|\1REASON|'
    outcome "$title"
}

wrong_logs() {
    usage='usage: hawsermole [--explain] [--keep-going] [--check] [FILE]   (hawsermole --help says more)'
    title="judge of a file that isn't there" unusable_log "$work/nowhere" judge "$work/nowhere"
    title="judge of a folder" unusable_log "$work" judge "$work"
    title="log of a script that isn't there" unusable_log "$work/nowhere" log "$work/nowhere" "$work/x"
    title="log to nowhere" unusable_log /no/where log "$root/examples/twelve_rows.script" /no/where
    want 2 "hawsermole: expected judge FILE" "$usage" </dev/null
    play judge </dev/null
    outcome "judge without a file"
    want 2 "hawsermole: line 2: 'dump' is no input: a log holds a set-up and inputs alone" </dev/null
    printf 'setup 1 0\ndump\n' | play log - "$work/none.log"
    outcome "log of what no log holds"
    [ -e "$work/none.log" ] && echo written >"$work/out"
    outcome "nothing is written then"
    want 2 "hawsermole: line 2: 'OutStart' is no input of document 01, whose CarrierOut moves the carrier at once: \
leave it out, or write in 27 .., which is answered 1" </dev/null
    printf 'setup 1 1\nOutStart 1\n' | play log - "$work/none.log"
    outcome "log of an input that document 01 hasn't"
    want 2 "hawsermole: line 2: 'Continue' is no input of document 01, which holds no pod: leave it out, or write \
in 36 .., which is answered 1" </dev/null
    printf 'setup 1 0\nContinue 1\n' | play log - "$work/none.log"
    outcome "log of a Continue, which document 01 hasn't"
    printf 'the file ends at byte 0, inside its head of 7\nrefused 29\n' | want 2
    play judge /dev/null </dev/null
    outcome "judge of an empty file"
}

# Cut at every position and with one byte changed at every position: a verdict each time, and its status.
damaged_logs() {
    log=$root/examples/log_agrees.log
    bytes=$(wc -c <"$log")
    : >"$work/met"
    at=0
    while [ "$at" -lt "$bytes" ]; do
        head -c "$at" "$log" >"$work/cut"
        {
            cat "$work/cut"
            printf '\377'
            tail -c "+$((at + 2))" "$log"
        } >"$work/changed"
        for damage in cut changed; do
            play judge "$work/$damage" </dev/null
            printf '%s %s %s\n' "$(cat "$work/status")" "$(status_of "$work/out")" "$(wc -c <"$work/err")" >>"$work/met"
        done
        at=$((at + 1))
    done
    # Every kind of end is met, each status belongs to its last line, and nothing is told on standard error.
    printf '0 0 0\n1 1 0\n2 2 0\n' | want 0
    sort -u "$work/met" >"$work/out"
    : >"$work/err"
    echo 0 >"$work/status"
    outcome "a log cut and changed at each of $bytes positions"
}

logs() {
    judged_examples
    written
    hands_in_logs
    wrong_logs
    damaged_logs
}
