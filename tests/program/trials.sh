# shellcheck shell=sh
# The launcher where nothing is built: trials by a stand-in for `rt`, and with EARTHC_TRY=1 also by the real one, which
# take about a minute each.

# A stand-in that answers as `rt try` was seen to: it runs the program where the files of --data lie, writes what that wrote,
# each to its stream, two lines of its own, and ends with the status of the program. It tells its words and its folder. Where
# the folder has a file `says`, it answers with that and status 6.
cat >"$folder/bin/rt" <<'END'
#!/bin/sh
{ printf '%s' "$PWD"; printf ' <%s>' "$@"; echo; } >"$RT_FOLDER/said"
room=$RT_FOLDER/room
rm -rf "$room"
mkdir "$room"
if [ -e "$RT_FOLDER/says" ]; then
    cat "$RT_FOLDER/says" >&2
    exit 6
fi
shift
while [ "$1" != -- ]; do
    cp -- "${2#*=}" "$room/${2%%=*}"
    shift 2
done
shift
status=0
(cd "$room" && exec env -i "$RT_PROGRAM" "$@") >"$RT_FOLDER/wrote" || status=$?
cat "$RT_FOLDER/wrote"
echo "rt: a check will refuse this: a line of rt's own" >&2
printf 'checked: ended status=%s\nrun=ended status=%s runners=1 proved=no\n' "$status" "$status" >&2
exit "$status"
END
chmod +x "$folder/bin/rt"
notice="earthc: a trial without proof, of about a minute: the program isn't built of these sources, so rt runs them as they are\n"
notice="${notice}earthc: for the proved program call '$site/earthc --build' once; then every command starts at once\n"

# tried WORD..: the launcher of the house where nothing is built, with these words; its two lines come first, and are cut off
tried() {
    status=0
    PATH=$folder/bin:$found TMPDIR=$folder/tmp "$site/earthc" "$@" >"$out" 2>"$folder/all" || status=$?
    head -n 2 "$folder/all" >"$folder/two"
    printf '%b' "$notice" | cmp -s - "$folder/two" || echo 'the two lines differ' >>"$folder/all"
    sed -e 1,2d "$folder/all" >"$err"
    ls -A "$folder/tmp" >>"$err"
}

# tries NAME WORD..: the trial answers as the launcher of the built house does
tries() {
    name=$1
    shift
    status=0
    "$house/earthc" "$@" >"$folder/built.out" 2>"$folder/built.err" </dev/null || status=$?
    wanted=$status
    tried "$@" </dev/null
    {
        cmp "$out" "$folder/built.out"
        cmp "$err" "$folder/built.err"
    } >"$folder/differs" 2>&1
    cp "$folder/differs" "$out"
    : >"$err"
    judge "tried, $name" "$wanted" '' ''
}

ill=$(printf 'row\377')
cp row.ec "$ill"
cp row.ec row.tc
cp row.ec ./-y
cp row.ec './x=y.ec'
cp row.ec main.rt
for file in row.ec ./row.ec sub/row.ec "$PWD/row.ec" x=y.ec ./-y case.ec - ./-x 'a b.ec' 'a\b.ec' é.ec none.ec none/row.ec \
    row.ec/row.ec sub . / '' -y -- --data row.tc .tc src/main.rt main.rt /proc/self/mem "$(repeat 300 a)"; do
    for command in run check print means; do
        tries "$command '$file'" "$command" "$file"
    done
done
for words in 7 '7 0' '0 1 2 3 4 5 6 7' '1 2 3 4 5 6 7 8 9' 07 -7 --; do
    # shellcheck disable=SC2086 # several words
    tries "means with $words" means given.ec $words
done
tries 'means with a trap' means halts.ec
tries 'means with output and a trap' means says.ec 1
tries 'no words'
for word in run check print means RUN row.ec --version --build '' -- -x; do
    tries "'$word' alone" "$word" ''
    tries "'$word' and a file" "$word" row.ec row.ec
    tries "two words '$word'" "$word" "$word" ''
done
tries 'a file with no end' check /dev/zero

# its words: FILE goes under another name, and rt is called where the program's crate stands
tried run "$PWD/x=y.ec" </dev/null
sed 's|=[^ >]*/source>|=../source>|' "$folder/said" >"$out"
judge 'the words of a trial' 0 "$site/crates/ec_main <try> <--data> <earthc-trial.ec=../source> <--> <run> <earthc-trial.ec>\n" 'result 9\n'
tried means given.ec 7 8 </dev/null
sed 's|=[^ >]*/source>|=../source>|' "$folder/said" >"$out"
judge 'the words of a trial with numbers' 0 \
    "$site/crates/ec_main <try> <--data> <earthc-trial.ec=../source> <--> <means> <earthc-trial.ec> <7> <8>\n" 'result 7\n'
tried run none.ec </dev/null
cp "$folder/said" "$out"
judge 'the words without a file' 5 "$site/crates/ec_main <try> <--> <run> <earthc-trial.ec>\n" 'read fault\n'
tried RUN row.ec </dev/null
cp "$folder/said" "$out"
judge 'the words of no command' 1 "$site/crates/ec_main <try> <--> <RUN> <row.ec>\n" 'words refused\n'
for command in run check print means RUN; do
    tried "$command" "$ill" </dev/null
    cat "$folder/said" >>"$out"
    judge "tried, $command, FILE not UTF-8" 1 "$site/crates/ec_main <try> <-->\n" \
        'earthc: a word is not UTF-8: rt cannot hand it on, and gives no words, which are refused in the same way\nwords refused\n'
done

# a program that is older than its sources isn't asked
finish "$site"
touch -t 200001010000 "$site/crates/ec_main/out/ec_main"
tries 'an older program' run row.ec
rm -r "$site/crates/ec_main/out"

# streams
tried check /dev/stdin <case.ec
judge 'tried, a stream' 2 '' "$plain"
printf '$' | tried check /dev/stdin

printf '$' >pipe &
tried check pipe </dev/null
wait
judge 'tried, a named pipe' 2 '' "$plain"
: >"$out"
ends() { # NAME STATUS: what else than the two lines the trial wrote to the error stream, that is nothing
    sed -e '/^earthc: /d' "$folder/all" >"$err"
    judge "tried, $1" "$2" "$3" "$4"
}
trial() { # WORD..
    PATH=$folder/bin:$found TMPDIR=$folder/tmp "$site/earthc" "$@"
}
status=0; trial run row.ec >&- 2>"$folder/all" || status=$?;          ends 'out closed' 6 '' ''
status=0; trial run row.ec >/dev/full 2>"$folder/all" || status=$?;   ends 'out full' 6 '' ''
status=0; trial run none.ec >&- 2>"$folder/all" || status=$?;         ends 'out closed, no file' 5 '' 'read fault\n'
: >"$folder/all"
status=0; trial run row.ec 2>&- >"$out" || status=$?;                 ends 'err closed' 6 '42\n' ''
status=0; trial run row.ec 2>/dev/full >"$out" || status=$?;          ends 'err full' 6 '42\n' ''
status=0; trial check row.ec 2>&- >"$out" || status=$?;               ends 'check, err closed' 0 'accepted\n' ''
status=0; trial check case.ec 2>/dev/full >"$out" || status=$?;       ends 'check, err full, refused' 6 '' ''
status=0; trial run row.ec <&- >"$out" 2>"$folder/all" || status=$?;  ends 'in closed' 0 '42\n' 'result 9\n'
status=0; (trial run row.ec; echo "$?" >"$folder/status") 2>"$folder/all" | :; status=$(cat "$folder/status")
: >"$out"; ends 'nobody reads the output' 6 '' ''

# where rt has no answer, or is missing
printf 'interpreter: no-answer: x\nchecked: no-answer: the program did not end within the time limit\nrun=no-answer proved=no\n' >"$folder/says"
tried run row.ec </dev/null
judge 'tried, no answer' 126 '' \
    'earthc: the trial has no answer: it ran for more than 60 seconds, or wrote more than 1 MiB; the built program may do both\n'
printf 'error: x\nrun=none proved=no\n' >"$folder/says"
tried run row.ec </dev/null
judge 'tried, no run' 126 '' "earthc: the trial did not come to its end: 'rt try' in $site/crates/ec_main says why\n"
rm "$folder/says"
mkdir "$folder/tools"
for tool in dirname readlink find; do
    ln -s "$(command -v "$tool")" "$folder/tools/$tool"
done
for word in run --build; do
    status=0; PATH=$folder/tools "$site/earthc" "$word" >"$out" 2>"$err" </dev/null || status=$?
    sed -i 's/^earthc: rt, .*, was not found$/no rt/' "$err"
    judge "$word without rt" 127 '' 'no rt\n'
done
status=0; PATH=$folder/bin:$found TMPDIR=$folder/none "$site/earthc" run row.ec >"$out" 2>"$err" </dev/null || status=$?
judge 'a trial without a folder' 126 '' 'earthc: no folder can be made for a trial\n'

# ---- the real rt

if [ "${EARTHC_TRY-}" = 1 ]; then
    fresh=$folder/fresh
    git clone -q "$top" "$fresh"
    # truly NAME STATUS OUT ERR -- WORD..: a trial by rt, of the crates as they were committed
    truly() {
        name=$1 wanted=$2 wanted_out=$3 wanted_err=$4
        shift 5
        status=0
        "$fresh/earthc" "$@" >"$out" 2>"$folder/all" </dev/null || status=$?
        sed 1,2d "$folder/all" >"$err"
        judge "truly tried, $name" "$wanted" "$wanted_out" "$wanted_err"
    }
    truly 'run' 0 '42\n' 'result 9\n' -- run row.ec
    truly 'refused' 2 '' "${plain}a=b.ec:1:1: stray \`\$\` in the program\n\$\n^\n" -- check a=b.ec
    truly 'no words' 1 '' 'words refused\n' --
    truly 'no file' 5 '' 'read fault\n' -- print none.ec
fi
