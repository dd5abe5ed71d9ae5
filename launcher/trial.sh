# shellcheck shell=sh
# Read by the launcher: the words as a trial by `rt try`, which runs the sources with checks and proves nothing.
source_name=earthc-trial.ec # what FILE is called there: no file has this name where rt looks for those that words name
source_most=1048577         # bytes: one more than a source may have, and what stands behind them is never read

# whether each word is UTF-8
are_texts() { # WORD..
    python3 -c 'import os, sys; [os.fsencode(word).decode() for word in sys.argv[1:]]' "$@" 2>/dev/null
}

# Says what is done, and what to call instead. (cat writes it, so that the launcher goes on where nobody reads it.)
say_trial() {
    cat <<END
earthc: a trial without proof, of about a minute: the program isn't built of these sources, so rt runs them as they are
earthc: for the proved program call '$0 --build' once; then every command starts at once
END
}

# Becomes rt, whose output and lines go to $room.
run_trial() { # WORD..
    cd "$crates/ec_main" || exit
    exec rt try "$@" </dev/null >"$room/out" 2>"$room/told"
}

# Says why rt gave no answer, and ends. The limits are those of rt.
fail_trial() { # LAST
    case $1 in
        'run=no-answer '*)
            fail 126 'the trial has no answer: it ran for more than 60 seconds, or wrote more than 1 MiB; the built program may do both' ;;
        *) fail 126 "the trial did not come to its end: 'rt try' in $crates/ec_main says why" ;;
    esac
}

# Writes what the program wrote, each to its stream, as far as it can be written. Behind its own lines stand those of rt.
hand_out() {
    sed -n -e '/^interpreter: /q' -e '/^checked: /q' -e '/^run=/q' -e '/^rt: /!p' "$room/told" >"$room/line"
    if [ -s "$room/out" ]; then
        cat "$room/out" 2>/dev/null || end 6
    fi
    if [ -s "$room/line" ]; then
        cat "$room/line" >&2 2>/dev/null || end 6
    fi
}

# Becomes what leaves the bytes of FILE in $room, as far as they are read.
copy() { # FILE
    [ "$1" != - ] || set -- ./-
    exec head -c "$source_most" "$1" >"$room/source" 2>/dev/null
}

# whether the words name a FILE whose bytes are in $room now
is_copied() { # WORD..
    attend copy "$2"
    [ -z "$caught" ] || end "$status"
    [ "$status" = 0 ]
}

# Tries the words, and ends as the program did.
try() { # WORD..
    command -v rt >/dev/null 2>&1 || fail 127 'rt, which tries, proves and builds the program, was not found'
    { room=$(mktemp -d) && room=$(cd "$room" && pwd); } 2>/dev/null || fail 126 'no folder can be made for a trial'
    scrap=$room
    say_trial >&2 2>/dev/null
    shown_as=
    if is_read_again "$@"; then
        shown_as=$2
    fi
    if ! are_texts "$@"; then
        echo 'earthc: a word is not UTF-8: rt cannot hand it on, and gives no words, which are refused in the same way' >&2
        set -- --
    elif ! names_file "$@"; then
        set -- -- "$@"
    elif is_copied "$@"; then
        named=$1
        shift 2
        set -- --data "$source_name=$room/source" -- "$named" "$source_name" "$@"
    else
        named=$1
        shift 2
        set -- -- "$named" "$source_name" "$@"
    fi
    attend run_trial "$@"
    [ -z "$caught" ] || end "$status"
    last=$(tail -n 1 "$room/told")
    case $last in
        'run=ended status='*) status=${last#run=ended status=} status=${status%% *} ;;
        *) fail_trial "$last" ;;
    esac
    hand_out
    case $status,$shown_as in
        2,?* | 3,?*) point "$(cat "$room/line")" "$shown_as" "$room/source" ;;
    esac
    end "$status"
}
