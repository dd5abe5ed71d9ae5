# shellcheck shell=sh
# Read by the tests and the measures: finds the built program, and moves to an empty folder that is gone at the end.
LC_ALL=C
export LC_ALL

top=$(cd "$(dirname "$0")/.." && pwd) || exit 1
program=$top/crates/ec_main/out/ec_main
if [ ! -x "$program" ]; then
    echo "$0: there is no $program: build it by 'rt run --' in crates/ec_main" >&2
    exit 1
fi

folder=$(mktemp -d) || exit 1
trap 'rm -rf "$folder"' EXIT
trap 'exit 1' HUP INT TERM
mkdir "$folder/here" && cd "$folder/here" || exit 1
