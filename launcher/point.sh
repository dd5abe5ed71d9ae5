# shellcheck shell=sh
# Read by the launcher: what it adds to a refusal and to a trap, which is FILE:LINE:COLUMN, a sentence, the line and a marker.

above=800 # bytes before the place that are looked at, to show them and for what the token follows
looked=2000 # bytes that are looked at in all

# Writes it for the line of the refusal or trap, of a FILE whose bytes stand in BYTES. Only awk writes to the error stream,
# so that the launcher goes on where nobody reads that any more.
point() { # LINE FILE BYTES
    number=0 kind= place=${1#* at }
    case $1 in
        'trap '*) kind=${1#trap } kind=${kind%% *} ;;
        *) number=${1#refused } number=${number%% *} ;;
    esac
    place=${place%% *}
    from=${place%..*} to=${place#*..}
    case $number,$from,$to in
        *[!0-9,]* | ,* | *,,* | *,) return ;;
    esac
    line=$(head -c "$from" <"$3" | tr -dc '\n' | wc -c)
    indent=$(($( (head -c "$from" <"$3"; echo .) | tail -n 1 | wc -c) - 2))
    start=$((from > above ? from - above : 0))
    before=0
    [ "$indent" -le "$above" ] || before=$(head -c "$start" <"$3" | tail -n 1 | LC_ALL=C tr -d '\200-\277' | wc -c)
    od -An -v -tu1 -j "$start" -N "$looked" <"$3" 2>/dev/null |
        LC_ALL=C file=$2 awk -v number="$number" -v kind="$kind" -v from="$from" -v to="$to" -v line="$((line + 1))" \
            -v start="$start" -v before="$before" -f "$parts/point.awk" >&2 2>/dev/null
}

# Asks again for the line of a refusal or trap that the program has written to a stream of the caller's. A source that is
# refused isn't run; what trapped is evaluated once more, and traps in the same place.
point_again() { # COMMAND FILE WORD..
    line=$("$program" "$@" 2>&1 >/dev/null)
    case $line in
        'refused '* | 'trap '*) point "$line" "$2" "$2" ;;
    esac
}
