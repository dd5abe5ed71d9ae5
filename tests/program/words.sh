# shellcheck shell=sh
# Words, files and streams.

# ---- words

printf '%s' 'int main(){ printf("%d\n", 6*7); return 0; }' >row.ec
mkdir sub
for file in ./- sub/row.ec 'a row.ec' é.ec row row.tcx; do
    cp row.ec "$file"
done
cp row.ec row.tc
cp row.ec ./-x
ill=$(printf 'row\377')
cp row.ec "$ill"

for file in row.ec ./row.ec sub/row.ec "$PWD/row.ec" 'a row.ec' é.ec row row.tcx - ./- ./-x; do
    expect "run '$file'" 0 '42\n' 'result 0\n' -- run "$file"
    expect "means '$file'" 0 '42\n' 'result 0\n' -- means "$file"
    expect "check '$file'" 0 'accepted\n' '' -- check "$file"
    expect "print '$file'" 0 'int main ( ) {\nprintf ( "%d\\n" , 6 * 7 ) ;\nreturn 0 ;\n}\n' '' -- print "$file"
done
for command in run check print means; do
    expect "$command, no FILE"          1 '' 'words refused\n' -- "$command"
    expect "$command, an empty FILE"    1 '' 'words refused\n' -- "$command" ''
    expect "$command, two FILEs"        1 '' 'words refused\n' -- "$command" row.ec row.ec
    expect "$command, a trailing word"  1 '' 'words refused\n' -- "$command" row.ec ''
    expect "$command, an option"        1 '' 'words refused\n' -- "$command" -x
    expect "$command, two hyphens"      1 '' 'words refused\n' -- "$command" --
    expect "$command, FILE in .tc"      1 '' 'words refused\n' -- "$command" row.tc
    expect "$command, FILE in .tc, sub" 1 '' 'words refused\n' -- "$command" ./row.tc
    expect "$command, FILE is .tc"      1 '' 'words refused\n' -- "$command" .tc
    expect "$command, the other order"  1 '' 'words refused\n' -- row.ec "$command"
    expect "$command, FILE not UTF-8"   1 '' 'words refused\n' -- "$command" "$ill"
    expect "$command, third not UTF-8"  1 '' 'words refused\n' -- "$command" row.ec "$ill"
done
expect 'no words'           1 '' 'words refused\n' --
expect 'an option before'   1 '' 'words refused\n' -- -x row.ec
expect 'RUN'                1 '' 'words refused\n' -- RUN row.ec
expect 'runs'               1 '' 'words refused\n' -- runs row.ec
expect 'Check'              1 '' 'words refused\n' -- Check row.ec
expect 'checks'             1 '' 'words refused\n' -- checks row.ec
expect 'prints'             1 '' 'words refused\n' -- prints row.ec
expect 'check and run'      1 '' 'words refused\n' -- check run row.ec
expect 'an empty command'   1 '' 'words refused\n' -- '' row.ec
expect '--help'             1 '' 'words refused\n' -- --help
expect '--version'          1 '' 'words refused\n' -- --version
expect 'command not UTF-8'  1 '' 'words refused\n' -- "$ill" row.ec

# ---- files

for command in run check print means; do
    expect "$command, a missing file"     5 '' 'read fault\n' -- "$command" none.ec
    expect "$command, a missing folder"   5 '' 'read fault\n' -- "$command" none/row.ec
    expect "$command, a file as folder"   5 '' 'read fault\n' -- "$command" row.ec/row.ec
    expect "$command, a folder"           5 '' 'read fault\n' -- "$command" sub
    expect "$command, a file that fails"  5 '' 'read fault\n' -- "$command" /proc/self/mem
    expect "$command, a file with no end" 2 '' 'refused 7 at 1048576..1048577 TooLong\n' -- "$command" /dev/zero
done

printf '%1048577s' '' >case.ec
refused 'a byte too many' 'refused 7 at 1048576..1048577 TooLong'
printf '$%1048576s' '' >case.ec
refused 'a byte too many, no token' 'refused 7 at 1048576..1048577 TooLong'
printf '%1048576s' '' >case.ec
refused 'the most bytes' 'refused 27 at 1048576..1048576 NoMain'
printf '%1048575s$' '' >case.ec
refused 'the most bytes, no token' 'refused 1 at 1048575..1048576 BadByte'
printf '%-1048576s' 'int main(){ return 8; }' >long.ec
expect 'a long program'          0 '' 'result 8\n' -- run long.ec
expect 'a long program, checked' 0 'accepted\n' '' -- check long.ec
expect 'a long program, printed' 0 'int main ( ) {\nreturn 8 ;\n}\n' '' -- print long.ec

# ---- streams that fail

printf '%s' 'int main(){ return 0; }' >quiet.ec
: >"$out"
status=0; "$program" run row.ec >&- 2>"$err" || status=$?;          judge 'out closed' 6 '' ''
status=0; "$program" run row.ec >/dev/full 2>"$err" || status=$?;   judge 'out full' 6 '' ''
status=0; "$program" run quiet.ec >&- 2>"$err" || status=$?;        judge 'out closed, no output' 0 '' 'result 0\n'
status=0; "$program" run quiet.ec >/dev/full 2>"$err" || status=$?; judge 'out full, no output' 0 '' 'result 0\n'
status=0; "$program" run none.ec >&- 2>"$err" || status=$?;         judge 'out closed, no file' 5 '' 'read fault\n'
: >"$err"
status=0; "$program" run row.ec 2>&- >"$out" || status=$?;          judge 'err closed' 6 '42\n' ''
status=0; "$program" run row.ec 2>/dev/full >"$out" || status=$?;   judge 'err full' 6 '42\n' ''
status=0; "$program" run none.ec 2>&- >"$out" || status=$?;         judge 'err closed, no file' 6 '' ''
status=0; "$program" 2>/dev/full >"$out" || status=$?;              judge 'err full, no words' 6 '' ''
status=0; "$program" run row.ec <&- >"$out" 2>"$err" || status=$?;  judge 'in closed' 0 '42\n' 'result 0\n'

: >"$out"
status=0; "$program" check row.ec >&- 2>"$err" || status=$?;         judge 'check, out closed' 6 '' ''
status=0; "$program" check row.ec >/dev/full 2>"$err" || status=$?;  judge 'check, out full' 6 '' ''
status=0; "$program" check none.ec >&- 2>"$err" || status=$?;        judge 'check, out closed, no file' 5 '' 'read fault\n'
: >"$err"
status=0; "$program" check row.ec 2>&- >"$out" || status=$?;         judge 'check, err closed' 0 'accepted\n' ''
status=0; "$program" check row.ec 2>/dev/full >"$out" || status=$?;  judge 'check, err full' 0 'accepted\n' ''
status=0; "$program" check none.ec 2>&- >"$out" || status=$?;        judge 'check, err closed, no file' 6 '' ''
status=0; "$program" check row.ec <&- >"$out" 2>"$err" || status=$?; judge 'check, in closed' 0 'accepted\n' ''

: >empty.ec
: >"$out"
status=0; "$program" print row.ec >&- 2>"$err" || status=$?;         judge 'print, out closed' 6 '' ''
status=0; "$program" print row.ec >/dev/full 2>"$err" || status=$?;  judge 'print, out full' 6 '' ''
status=0; "$program" print empty.ec >&- 2>"$err" || status=$?;       judge 'print, out closed, no text' 0 '' ''
status=0; "$program" print none.ec >&- 2>"$err" || status=$?;        judge 'print, out closed, no file' 5 '' 'read fault\n'
