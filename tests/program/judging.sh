# shellcheck shell=sh
# How a case is judged.

# shown FILE: the beginning of it, on one line; a $ is a line feed
shown() {
    head -c 120 "$1" | tr '\n' '$'
}

# judge NAME STATUS OUT ERR: whether the last run ended with $status = STATUS and wrote OUT and ERR; there \n is a line feed
judge() {
    differs=
    [ "$status" = "$2" ] || differs=" status $status, not $2;"
    printf '%b' "$3" | cmp -s - "$out" || differs="$differs out is '$(shown "$out")', not '$3';"
    printf '%b' "$4" | cmp -s - "$err" || differs="$differs err is '$(shown "$err")', not '$4';"
    if [ -z "$differs" ]; then
        passed=$((passed + 1))
    else
        failed=$((failed + 1))
        printf '%s:%s\n' "$1" "$differs"
    fi
}

# expect NAME STATUS OUT ERR -- WORD..: the program with these words
expect() {
    name=$1 wanted=$2 wanted_out=$3 wanted_err=$4
    shift 5
    status=0
    "$program" "$@" >"$out" 2>"$err" </dev/null || status=$?
    judge "$name" "$wanted" "$wanted_out" "$wanted_err"
}

# prints NAME FILE: the file is printed, and what was printed is printed as it is
prints() {
    status=0
    "$program" print "$2" >once.ec 2>"$err" </dev/null || status=$?
    : >"$out"
    judge "$1, printed" 0 '' ''
    status=0
    "$program" print once.ec >twice.ec 2>"$err" </dev/null || status=$?
    cmp once.ec twice.ec >"$out" 2>&1
    judge "$1, printed again" 0 '' ''
}

# gives NAME OUT RESULT SOURCE: the source is accepted, and runs, also as it is printed
gives() {
    printf '%s' "$4" >case.ec
    expect "$1, checked" 0 'accepted\n' '' -- check case.ec
    expect "$1" 0 "$2" "result $3\n" -- run case.ec
    prints "$1" case.ec
    expect "$1, run as printed" 0 "$2" "result $3\n" -- run once.ec
}

# refused NAME LINE: case.ec is refused with this line, whether it is to be checked, run or printed; by types it is printed
refused() {
    expect "$1, checked" 2 '' "$2\n" -- check case.ec
    expect "$1" 2 '' "$2\n" -- run case.ec
    case $2 in
        'refused 2'[0-9]*) prints "$1" case.ec ;;
        *) expect "$1, printed" 2 '' "$2\n" -- print case.ec ;;
    esac
}

# marked SOURCE: writes the source without its marks to case.ec, and the place between them to $place
marked() {
    before=${1%%«*}
    after=${1#*«}
    inside=${after%%»*}
    printf '%s' "$before$inside${after#*»}" >case.ec
    place=${#before}..$((${#before} + ${#inside}))
}

# refuses NUMBER KIND NAME SOURCE: the source is refused so, at the marked place
refuses() {
    marked "$4"
    refused "$3" "refused $1 at $place $2"
}

# stops NAME SOURCE: the source is accepted, but no program that runs goes on with the marked token
stops() {
    marked "$2"
    expect "$1, checked" 0 'accepted\n' '' -- check case.ec
    expect "$1" 2 '' "refused 9 at $place NotYet\n" -- run case.ec
    prints "$1" case.ec
}

# unexpected NAME SOURCE: no program goes on with the marked token
unexpected() {
    refuses 10 Expected "$1" "$2"
}

# deepens NAME SOURCE: the marked token stands too deep
deepens() {
    refuses 11 TooDeep "$1" "$2"
}

# passes NAME SOURCE: the marked token passes another limit
passes() {
    refuses 12 TooMany "$1" "$2"
}

# fits NAME SOURCE: the source is a program of the whole language
fits() {
    printf '%s' "$2" >case.ec
    prints "$1" case.ec
}

# repeat COUNT TEXT: the text so many times
repeat() {
    awk -v count="$1" -v text="$2" 'BEGIN { while (count-- > 0) printf "%s", text }'
}

# decls COUNT: declarations of v1, v2 and so on
decls() {
    awk -v count="$1" 'BEGIN { for (i = 1; i <= count; i++) printf "int v%d; ", i }'
}
