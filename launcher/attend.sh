# shellcheck shell=sh
# Read by the launcher: a command that it waits for, and its end, which becomes the launcher's own.
child=
caught=
scrap= # what is removed at the end
trap clean EXIT

clean() {
    [ -z "$scrap" ] || rm -rf "$scrap"
}

# Hands a signal on to the command. One that waits in the background ignores INT and QUIT, so these go on as TERM.
hand_on() { # SIGNAL GIVEN
    caught=$1
    [ -z "$child" ] || kill -s "$2" "$child" 2>/dev/null
}

heed_signals() {
    trap 'hand_on HUP HUP' HUP
    trap 'hand_on INT TERM' INT
    trap 'hand_on QUIT TERM' QUIT
    trap 'hand_on TERM TERM' TERM
}

# Takes the command that was just begun as the one that gets the signals.
begin() {
    child=$!
    [ -z "$caught" ] || kill -s TERM "$child" 2>/dev/null
}

# Waits for the command in $child, and leaves its $status. A signal ends the wait before the command has ended. What the
# shell says of a command that a signal has ended isn't shown.
await() {
    wait "$child"
    status=$?
    while kill -0 "$child"; do
        wait "$child"
        status=$?
    done
} 2>/dev/null

# Runs the words with the streams of this shell, and leaves their $status.
attend() { # WORD..
    heed_signals
    if { true 3<&0; } 2>/dev/null; then
        { "$@" <&3 3<&- & } 3<&0
    else
        "$@" <&- &
    fi
    begin
    await
    child=
}

# Ends as the command did: with its status, or by the signal that ended it or that was handed on.
end() { # STATUS
    signal=$caught
    [ -n "$signal" ] || [ "$1" -le 128 ] || signal=$(kill -l "$1" 2>/dev/null)
    if [ -n "$signal" ]; then
        # shellcheck disable=SC3045 # dash and bash have it
        ulimit -c 0
        trap - HUP INT QUIT TERM
        clean
        kill -s "$signal" "$$"
    fi
    exit "$1"
}
