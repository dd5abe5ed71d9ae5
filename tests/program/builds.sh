# shellcheck shell=sh
# Builds by the launcher, and what it takes for built.

# A stand-in that goes on as `rt run` does: it tells each crate as it begins it, leaves the program, and runs it with no words.
cat >"$folder/bin/rt" <<'END'
#!/bin/sh
printf '%s' "$PWD" >"$RT_FOLDER/said"; printf ' <%s>' "$@" >>"$RT_FOLDER/said"; echo >>"$RT_FOLDER/said"
[ ! -e "$RT_FOLDER/says" ] || { cat "$RT_FOLDER/says" >&2; exit 1; }
echo 'rt: waiting for another rt to finish in there' >&2
echo 'so far: 0 of 9 functions checked; the verdict comes last' >&2
for name in ec_base ec_lex ec_driver ec_main; do
    printf 'rt: chose --jobs 2 ' >&2
    sleep 0.3
    echo "for $name" >&2
    echo 'logic=proved functions=9' >&2
done
cp "$RT_PROGRAM" "$PWD/out/ec_main"
touch "$PWD/out/ec_main"
echo 'rt: running out/ec_main; to give it other input, run that file yourself' >&2
exec "$RT_PROGRAM" "$@" >&2
END
built="$site/crates/ec_main/out/ec_main"

# builds NAME STATUS ERR: --build of the house, with its times and its two lines of cost cut
builds() {
    status=0
    PATH=$folder/bin:$found "$site/earthc" --build >"$out" 2>"$folder/all" </dev/null || status=$?
    sed -e '/^earthc: proving and building/,+1d' -e 's/since [0-9][0-9]:[0-9][0-9]:[0-9][0-9]/since then/' "$folder/all" >"$err"
    judge "build, $1" "$2" '' "$3"
}

echo 'error: x' >"$folder/says"
builds 'not proved' 126 "earthc: the program could not be proved and built: $site/crates/ec_main/out/build.log says why\n"
rm "$folder/says"
steps='earthc: waiting for another rt to finish in there\n'
at=0
for name in ec_base ec_lex ec_driver ec_main; do
    at=$((at + 1))
    steps="${steps}earthc: since then: crate PLACE$at of 16, $name\n"
done
steps=$(printf '%s' "$steps" | sed -e 's/PLACE1/1/' -e 's/PLACE2/3/' -e 's/PLACE3/15/' -e 's/PLACE4/16/')
builds 'the first' 0 "${steps}earthc: the program is built: $built\n"
cp "$folder/said" "$out"; : >"$err"; judge 'the words of a build' 0 "$site/crates/ec_main <run> <-->\n" ''
builds 'again' 0 "earthc: the program is built: $built\n"
status=0; "$site/earthc" run row.ec >"$out" 2>"$err" </dev/null || status=$?
judge 'built, run' 0 '42\n' 'result 9\n'
touch "$site/crates/ec_main/src/main.rt"
builds 'a younger source' 0 "${steps}earthc: the program is built: $built\n"
rm "$site/crates/ec_main/out/build.log"
touch "$built"
status=0; "$site/earthc" run row.ec >"$out" 2>"$err" </dev/null || status=$?
judge 'as rt ci leaves it, run' 0 '42\n' 'result 9\n'

# a build that is told to end, and one whose sources change as it goes
touch "$site/crates.txt"
PATH=$folder/bin:$found "$site/earthc" --build >"$out" 2>"$err" </dev/null &
launched=$!
sleep 0.2
kill -s TERM "$launched"
status=0
wait "$launched" 2>/dev/null || status=$?
find "$site/crates/ec_main/out" ! -name out ! -name ec_main ! -name build.log >"$out"
: >"$err"
judge 'a build that is told to end' 143 '' ''
PATH=$folder/bin:$found "$site/earthc" --build >"$out" 2>"$err" </dev/null &
launched=$!
sleep 0.5
touch "$site/crates.txt"
status=0
wait "$launched" || status=$?
find "$site/crates.txt" -newer "$built" >"$out"
: >"$err"
judge 'a build whose sources change' 0 "$site/crates.txt\n" ''

# a folder in which nothing can be written
rm -rf "$site/crates/ec_main/out"
echo >"$site/crates/ec_main/out"
builds 'nothing can be written' 126 \
    "earthc: the program cannot be built here, since nothing can be written in $site/crates/ec_main/out; trials need no more than a folder for a while\n"
