# shellcheck shell=sh
# The pages of the launcher, with the examples in them.

# in_part FILE HEADING: the part of a page behind the heading, whose lines are indented
in_part() {
    awk -v heading="$2" '$0 == heading { inside = 1; next } inside && /^[^ ]/ { exit } inside && NF { sub(/^    /, ""); print }' "$1"
}

# makes FILE: writes example.ec with the text, which is its source or a command that writes it
makes() {
    case $1 in
        *'>example.ec') sh -c "$1" ;;
        *) printf '%s\n' "$1" >example.ec ;;
    esac
}

for number in 1 2 3 4 5 6 7 9 10 11 12 20 21 22 23 24 25 26 27 28 29; do
    status=0; "$house/earthc" --explain "$number" >page 2>"$err" </dev/null || status=$?
    cp "$top/docs/refusals/$number.txt" "$out"
    cmp page "$out" >"$folder/differs"; cp "$folder/differs" "$out"
    judge "the page on $number" 0 '' ''
    makes "$(in_part page 'An example:')"
    status=0; "$house/earthc" check example.ec >"$out" 2>"$folder/all" </dev/null || status=$?
    in_part page 'is refused so:' | cmp - "$folder/all" >"$err" 2>&1
    judge "the example on $number" 2 '' ''
    grep -q "^refused $number at " "$folder/all" || echo "not refused with $number" >"$out"
    judge "the number of the example on $number" 2 '' ''
    makes "$(in_part page 'Its mend:')"
    launches "the mend of the example on $number" 0 'accepted\n' '' -- check example.ec
done
for usage in 'check FILE' 'means FILE [INT..]' 'print FILE' 'run FILE'; do
    command=${usage%% *}
    status=0; "$house/earthc" --help "$command" >page 2>"$err" </dev/null || status=$?
    head -n 1 page >"$out"
    judge "the page on $command" 0 "usage: earthc $usage\n" ''
    status=0
    # shellcheck disable=SC2046 # words without blanks
    (cd "$top" && "$house/earthc" $(in_part "$folder/here/page" 'An example:' | sed 's/^earthc //')) >"$out" 2>"$err" </dev/null || status=$?
    grep -q . "$out" && : >"$out"
    sed -i '/^result 0$/d' "$err"
    judge "the example of $command" 0 '' ''
done
awk 'length($0) > 75 { print FILENAME ": " $0 }' "$top"/docs/commands/*.txt "$top"/docs/refusals/*.txt >"$out"
: >"$err"; status=0; judge 'the width of the pages' 0 '' ''
launches 'no refusal' 1 '' "earthc: there is no refusal '8': the refusals are 1 to 7, 9 to 12 and 20 to 29\n" -- --explain 8
launches 'no number' 1 '' "earthc: there is no refusal '../1': the refusals are 1 to 7, 9 to 12 and 20 to 29\n" -- --explain ../1
launches 'no page' 1 '' "earthc: there is no command 'walk': the commands are check, means, print and run\n" -- --help walk
launches 'the version' 0 'earthc 0.1.0\n' '' -- --version
launches 'three words' 1 '' 'words refused\n' -- --help run run

status=0; "$house/earthc" --help >page 2>"$err" </dev/null || status=$?
head -n 1 page >"$out"
judge 'the page of help' 0 'usage: earthc COMMAND FILE [INT..]\n' ''
for word in BadByte BadNumber OpenComment OpenString BadEscape HashLine TooLong NotYet Expected TooDeep TooMany Unknown Twice Mismatch NotLocal SharedEscapes ReturnInside PrintInside NoMain \
    StructTooBig HeaderForm accepted \
    print means 'steps spent' 'too deep' Bounds 'words refused' --build --explain; do
    grep -F -o -- "$word" page | head -n 1 >"$out"
    judge "help on $word" 0 "$word\n" ''
done
