# shellcheck shell=sh
# Read by the launcher: proves and builds the program, and says as it goes where that is.

say() { # TEXT
    printf 'earthc: %s\n' "$1" >&2
}

# The crates that the program is built of, in the order in which rt proves them, one a line.
parts_of_program() {
    awk '
        { sub(/#.*/, "") }
        index($0, ":") { name = $1; sub(/:$/, "", name); sub(/[^:]*:/, ""); stands_on[name] = $0 }
        function visit(name,    below, count, i) {
            if (!(name in stands_on) || name in seen) return
            seen[name] = 1
            count = split(stands_on[name], below, " ")
            for (i = 1; i <= count; i++) visit(below[i])
            print name
        }
        END { visit("ec_main") }
    ' "$top/crates.txt"
}

# Says what a line of rt tells: that it begins a crate, or waits for another rt.
tell() { # LINE
    case $1 in
        'rt: chose --jobs '*' for '*)
            name=${1##* }
            place=$(printf '%s\n' "$names" | grep -nx -- "$name")
            say "since $(date +%H:%M:%S): crate ${place%%:*} of $count, $name"
            ;;
        'rt: waiting for '*) say "${1#rt: }" ;;
    esac
}

# Takes what stands in the log behind what was taken. The end of it may be a part of a line.
take() {
    while IFS= read -r part <&4; do
        tell "$begun$part"
        begun=
    done
    begun=$begun$part
}

# Becomes rt, whose lines go to the log. It also runs the program with no words.
run_build() {
    cd "$crates/ec_main" || exit
    exec rt run -- </dev/null >"$log" 2>&1
}

# Proves and builds over what is there, so a build that was stopped goes on. The program then is as old as the beginning of
# this, so that what was changed since is younger. An older program stays where a build fails, and tells nothing.
build() {
    if is_fresh; then
        say "the program is built: $program"
        exit
    fi
    command -v rt >/dev/null 2>&1 || fail 127 'rt, which proves and builds the program, was not found'
    log=$out/build.log
    start=$out/.start.$$
    scrap=$start
    { mkdir -p "$out" && : >"$start" && : >"$log"; } 2>/dev/null ||
        fail 126 "the program cannot be built here, since nothing can be written in $out; trials need no more than a folder for a while"
    names=$(parts_of_program)
    count=$(printf '%s\n' "$names" | wc -l)
    say 'proving and building the program, at first some twenty minutes on four processors; what is proved already is taken'
    say "a check takes up to some 4 GB of memory, and some 2 GB stay on the disk in $crates/*/out"
    heed_signals
    trap '' PIPE
    run_build &
    begin
    begun=
    exec 4<"$log"
    while kill -0 "$child" 2>/dev/null; do
        sleep 1
        take
    done
    await
    take
    [ -z "$caught" ] || end "$status"
    if [ "$(tail -n 1 "$log")" != 'words refused' ] || [ ! -x "$program" ]; then
        fail 126 "the program could not be proved and built: $log says why"
    fi
    touch -r "$start" "$program"
    say "the program is built: $program"
}
