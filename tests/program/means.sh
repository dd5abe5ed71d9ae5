# shellcheck shell=sh
# What `means` makes of programs, of its words and of files.

# ---- programs

# Each row of means.tsv has the status that is wanted, the arguments of main, the output, the line and the source; a \n
# there is a line feed, a \t a tab and a \\ a backslash. The rows come from an evaluator written apart from this one.
row=0
unit=$(printf '\037') # no blank, so that empty columns stay
tr '\t' "$unit" <"$top/tests/program/means.tsv" >rows
while IFS=$unit read -r ends given written line source; do
    row=$((row + 1))
    printf '%b' "$source" >case.ec
    # shellcheck disable=SC2086 # the arguments are parted by spaces
    expect "row $row of the meanings" "$ends" "$written" "$line\n" -- means case.ec $given
done <rows

# pictured NUMBER: writes the example of that number in the part on the meaning of docs/LANGUAGE.md to case.ec
pictured() {
    awk -v number="$1" '
        /^## / { inside = $2 == "Meaning" }
        /^```/ { begins = $0 == "```c"; count += inside && begins; shown = inside && begins && count == number; next }
        shown' "$top/docs/LANGUAGE.md" >case.ec
}
pictured 1; expect 'the example of the order' 0 '1 2 3 4 0 6 7 67\n' 'result 14\n' -- means case.ec
pictured 2; expect 'the example of a trap' 3 'x' 'trap Bounds at 121..128\n' -- means case.ec
pictured 3; expect 'the example of births' 0 '' 'result 0\n' -- means case.ec

# ---- words

printf '%s' 'int main(int a, int b, int c, int d, int e, int f, int g, int h){
    printf("%d %d %d %d %d %d %d %d\n", a, b, c, d, e, f, g, h); return a; }' >given.ec
cp given.ec given.tc
cp given.ec 5
cp given.ec ./-1

# takes RESULT OUT INT..: with these arguments the program prints the parameters of its main, and has this result
takes() {
    gave=$1 shows=$2
    shift 2
    expect "the arguments '$*'" 0 "$shows\n" "result $gave\n" -- means given.ec "$@"
}

# turns_away WORD..: these words are no command
turns_away() {
    expect "the words '$*'" 1 '' 'words refused\n' -- means "$@"
}

takes 0 '0 0 0 0 0 0 0 0'
takes 1 '1 0 0 0 0 0 0 0' 1
takes 1 '1 2 0 0 0 0 0 0' 1 2
takes 1 '1 2 3 0 0 0 0 0' 1 2 3
takes 1 '1 2 3 4 0 0 0 0' 1 2 3 4
takes 1 '1 2 3 4 5 0 0 0' 1 2 3 4 5
takes 1 '1 2 3 4 5 6 0 0' 1 2 3 4 5 6
takes 1 '1 2 3 4 5 6 7 0' 1 2 3 4 5 6 7
takes 1 '1 2 3 4 5 6 7 8' 1 2 3 4 5 6 7 8
takes 0 '0 10 0 0 0 0 0 0' 0 10
takes 9223372036854775807 '9223372036854775807 9223372036854775806 0 0 0 0 0 0' 9223372036854775807 9223372036854775806
turns_away given.ec 1 2 3 4 5 6 7 8 9
for word in '' 00 01 007 - -- -0 -1 -x +1 1x x 0x1 1e3 1.0 ' 1' '1 ' '1 2' 1,2 1_000 ١ 9223372036854775808 \
    09223372036854775807 18446744073709551615 18446744073709551616 36893488147419103233 99999999999999999999999999999999; do
    turns_away given.ec "$word"
    turns_away given.ec 1 "$word"
    turns_away given.ec "$word" 1
    turns_away given.ec 1 2 3 4 5 6 7 "$word"
done
turns_away given.ec "1$(printf '\377')"
turns_away given.ec '1
'
turns_away given.tc
turns_away given.tc 1
turns_away ./given.tc 1
turns_away -1
turns_away -1 1
turns_away --
turns_away -- given.ec
turns_away --steps 10 given.ec
turns_away given.ec given.ec
turns_away 1 given.ec
turns_away none.ec x
expect 'a file named 5' 0 '7 0 0 0 0 0 0 0\n' 'result 7\n' -- means 5 7
expect 'a file named ./-1' 0 '7 0 0 0 0 0 0 0\n' 'result 7\n' -- means ./-1 7
expect 'means with a missing file' 5 '' 'read fault\n' -- means none.ec 1

# ---- refusals, each by its number

# denies NUMBER KIND SOURCE: the source is refused so, at the marked place
denies() {
    marked "$3"
    expect "means, refused with $1" 2 '' "refused $1 at $place $2\n" -- means case.ec
}

denies 1 BadByte        'int main(){ return «$»; }'
denies 2 BadNumber      'int main(){ return «9223372036854775808»; }'
denies 3 OpenComment    'int main(){ return 0; } «/* end»'
denies 4 OpenString     'int main(){ printf(«"a); }»'
denies 5 BadEscape      'int main(){ printf("a«\q»"); return 0; }'
denies 6 HashLine       '«#define X»
int main(){ return 0; }'
denies 10 Expected      'int main(){ return«»'
denies 11 TooDeep       "int main(){ $(repeat 64 '{')«;» }"
denies 12 TooMany       'int main(){ printf("", 1, 2, 3, 4, 5, 6, 7, 8, «9»); return 0; }'
denies 20 Unknown       'int main(){ return «x»; }'
denies 21 Twice         'int main(){ int x; int «x»; return 0; }'
denies 22 Mismatch      'int main(){ «printf("%d")»; return 0; }'
denies 23 NotLocal      'int main(){ int *p; local int *l; l = «p»; return 0; }'
denies 24 SharedEscapes 'int main(){ shared int s; int x; x = «s»; return 0; }'
denies 25 ReturnInside  'int main(){ {^ «return 1;» ^} return 0; }'
denies 26 PrintInside   'int main(){ {^ «printf("x")»; ^} return 0; }'
denies 27 NoMain        '«»'
denies 28 StructTooBig  'struct «s» { int a[64]; int x; }; int main(){ return 0; }'
denies 29 HeaderForm    'int main(){ int i, j; forall (i = 0; i < 3; «j» = i) ; return 0; }'
printf '%1048577s' '' >case.ec
expect 'means, refused with 7' 2 '' 'refused 7 at 1048576..1048577 TooLong\n' -- means case.ec
printf '%-1048576s' 'int main(){ return 8; }' >case.ec
expect 'means, the most bytes' 0 '' 'result 8\n' -- means case.ec

# ---- streams that fail

printf '%s' 'int main(){ printf("x"); return 1 / 0; }' >says.ec
printf '%s' 'int main(){ return 1 / 0; }' >halts.ec
expect 'output before a trap' 3 'x' 'trap DivZero at 32..37\n' -- means says.ec
expect 'a trap' 3 '' 'trap DivZero at 19..24\n' -- means halts.ec
: >"$out"
status=0; "$program" means says.ec >&- 2>"$err" || status=$?;       judge 'means, out closed' 6 '' ''
status=0; "$program" means says.ec >/dev/full 2>"$err" || status=$?; judge 'means, out full' 6 '' ''
status=0; "$program" means halts.ec >&- 2>"$err" || status=$?
judge 'means, out closed, no output' 3 '' 'trap DivZero at 19..24\n'
status=0; "$program" means none.ec >&- 2>"$err" || status=$?;       judge 'means, out closed, no file' 5 '' 'read fault\n'
: >"$err"
status=0; "$program" means says.ec 2>&- >"$out" || status=$?;       judge 'means, err closed' 6 'x' ''
status=0; "$program" means says.ec 2>/dev/full >"$out" || status=$?; judge 'means, err full' 6 'x' ''
status=0; "$program" means halts.ec 2>&- >"$out" || status=$?;      judge 'means, err closed, no output' 6 '' ''
status=0; "$program" means says.ec <&- >"$out" 2>"$err" || status=$?
judge 'means, in closed' 3 'x' 'trap DivZero at 32..37\n'
