# shellcheck shell=sh
# Read by the measures beside it: what a call of the built program takes.
# shellcheck disable=SC1091
. "$(dirname "$0")/../tests/built.sh"

# peak_of WORD..: does that, and writes its peak in KiB to the file peak
if [ -x /usr/bin/time ]; then
    peak_of() { /usr/bin/time -f %M -o peak "$@"; }
else
    peak_of() {
        python3 -c 'import resource, subprocess, sys
status = subprocess.call(sys.argv[1:])
open("peak", "w").write(str(resource.getrusage(resource.RUSAGE_CHILDREN).ru_maxrss))
sys.exit(status)' "$@"
    }
fi

# once COMMAND FILE: the nanoseconds and the peak in KiB on a line; a refusal with 9 and spent ticks are answers too
once() {
    from=$(date +%s%N)
    peak_of "$program" "$1" "$2" >out 2>err || grep -q -e '^refused 9 ' -e '^steps spent' err ||
        echo "$0: $1 $2 ended with status $?: $(cat err)" >&2
    to=$(date +%s%N)
    echo "$((to - from)) $(tail -n 1 peak)"
}

# measured COMMAND FILE: the median of the nanoseconds and of the peaks of five runs
measured() {
    for _ in 1 2 3 4 5; do
        once "$1" "$2"
    done >runs
    echo "$(cut -d ' ' -f 1 runs | sort -n | sed -n 3p) $(cut -d ' ' -f 2 runs | sort -n | sed -n 3p)"
}
