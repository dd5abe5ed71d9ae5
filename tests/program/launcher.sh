# shellcheck shell=sh
# The launcher over the built program: its words, statuses, streams and signals.

# ---- houses: copies of the launcher, over crates that hold one file

# furnish FOLDER: the launcher there, where nothing is built
furnish() {
    mkdir -p "$1/docs" "$1/crates/ec_main/src" "$1/crates/ec_main/specs" "$1/crates/ec_main/proofs"
    cp -R "$top/earthc" "$top/launcher" "$top/crates.txt" "$1"
    cp -R "$top/docs/commands" "$top/docs/refusals" "$1/docs"
    cp "$top/crates/ec_main/src/main.rt" "$1/crates/ec_main/src"
}

# finish FOLDER: the program there, as a plain `rt ci` leaves it
finish() {
    mkdir -p "$1/crates/ec_main/out"
    cp "$program" "$1/crates/ec_main/out/ec_main"
}

house=$folder/house
site="$folder/a site"
furnish "$house"
finish "$house"
furnish "$site"

# what a stand-in for `rt` is told, where it lies, and a folder for temporary files
found=$PATH
RT_FOLDER=$folder
RT_PROGRAM=$program
export RT_FOLDER RT_PROGRAM
mkdir "$folder/bin" "$folder/tmp"

# launches NAME STATUS OUT ERR -- WORD..: the launcher of the built house with these words
launches() {
    name=$1 wanted=$2 wanted_out=$3 wanted_err=$4
    shift 5
    status=0
    "$house/earthc" "$@" >"$out" 2>"$err" </dev/null || status=$?
    judge "launcher, $name" "$wanted" "$wanted_out" "$wanted_err"
}

# ---- the built program: its words, statuses and streams

printf '%s' 'int main(){ printf("%d\n", 6*7); return 9; }' >row.ec
printf '%s' 'int main(int a, int b){ return a + b; }' >sums.ec
printf '$' >case.ec
plain='refused 1 at 0..1 BadByte\n' # the line of the program for case.ec
mkfifo pipe
mkdir -p sub
cp row.ec sub/row.ec
launches 'run' 0 '42\n' 'result 9\n' -- run row.ec
launches 'check' 0 'accepted\n' '' -- check sub/row.ec
launches 'print' 0 'int main ( ) {\nprintf ( "%d\\n" , 6 * 7 ) ;\nreturn 9 ;\n}\n' '' -- print row.ec
launches 'means' 0 '42\n' 'result 9\n' -- means row.ec
launches 'means, with numbers' 0 '' 'result 15\n' -- means sums.ec 7 8
launches 'means, with a number too many' 1 '' 'words refused\n' -- means sums.ec 1 2 3 4 5 6 7 8 9
launches 'means, with no number' 1 '' 'words refused\n' -- means sums.ec 07
launches 'no words' 1 '' 'words refused\n' --
launches 'other words' 1 '' 'words refused\n' -- --help run row.ec
launches 'a missing file' 5 '' 'read fault\n' -- run none.ec
launches 'a folder' 5 '' 'read fault\n' -- run sub

: >"$out"
status=0; "$house/earthc" run row.ec >&- 2>"$err" || status=$?;         judge 'launcher, out closed' 6 '' ''
status=0; "$house/earthc" run row.ec >/dev/full 2>"$err" || status=$?;  judge 'launcher, out full' 6 '' ''
status=0; "$house/earthc" run case.ec >&- 2>"$err" </dev/null || status=$?
judge 'launcher, out closed, refused' 2 '' "${plain}case.ec:1:1: stray \`\$\` in the program\n\$\n^\n"
: >"$err"
status=0; "$house/earthc" run row.ec 2>&- >"$out" || status=$?;         judge 'launcher, err closed' 6 '42\n' ''
status=0; "$house/earthc" run row.ec 2>/dev/full >"$out" || status=$?;  judge 'launcher, err full' 6 '42\n' ''
status=0; "$house/earthc" run case.ec 2>&- >"$out" || status=$?;        judge 'launcher, err closed, refused' 6 '' ''
status=0; "$house/earthc" run case.ec 2>/dev/full >"$out" || status=$?; judge 'launcher, err full, refused' 6 '' ''
status=0; "$house/earthc" run row.ec <&- >"$out" 2>"$err" || status=$?; judge 'launcher, in closed' 0 '42\n' 'result 9\n'
status=0; "$house/earthc" run case.ec <&- >"$out" 2>"$err" || status=$?
judge 'launcher, in closed, refused' 2 '' "${plain}case.ec:1:1: stray \`\$\` in the program\n\$\n^\n"
status=0; "$house/earthc" run case.ec >&- 2>&- <&- || status=$?
: >"$out"; : >"$err"; judge 'launcher, all closed' 6 '' ''

# from another folder, and through a link
ln -s "$house/earthc" sub/earthc
status=0; (cd sub && ./earthc run row.ec) >"$out" 2>"$err" </dev/null || status=$?
judge 'launcher, by a link' 0 '42\n' 'result 9\n'

# a program that is ended by a signal, that has another status, or that lasts until the launcher is told to end
other=$folder/other
furnish "$other"
mkdir "$other/crates/ec_main/out"
fake=$other/crates/ec_main/out/ec_main
for signal in 9 15 11; do
    # shellcheck disable=SC2016 # the program is to see its own number
    printf '#!/bin/sh\nkill -%s $$\n' "$signal" >"$fake"
    chmod +x "$fake"
    status=0
    { "$other/earthc" run row.ec; } >"$out" 2>"$err" </dev/null || status=$?
    : >"$err"
    judge "launcher, ended by signal $signal" "$((128 + signal))" '' ''
done
printf '#!/bin/sh\necho odd >&2\nexit 2\n' >"$fake"
status=0; "$other/earthc" run row.ec >"$out" 2>"$err" </dev/null || status=$?
judge 'launcher, 2 with another line' 2 '' 'odd\n'
printf '#!/bin/sh\nexit 9\n' >"$fake"
status=0; "$other/earthc" run row.ec >"$out" 2>"$err" </dev/null || status=$?
judge 'launcher, a status of 9' 9 '' ''
# shellcheck disable=SC2016
printf '#!/bin/sh\necho $$ >%s\nexec sleep 60\n' "$folder/number" >"$fake"
for signal in 15 1; do
    rm -f "$folder/number"
    "$other/earthc" run row.ec >"$out" 2>"$err" </dev/null &
    launched=$!
    while [ ! -s "$folder/number" ]; do sleep 0.1; done
    kill "-$signal" "$launched"
    status=0
    wait "$launched" 2>/dev/null || status=$?
    ! kill -0 "$(cat "$folder/number")" 2>/dev/null || echo 'still there' >>"$err"
    judge "launcher, told to end by signal $signal" "$((128 + signal))" '' ''
done
