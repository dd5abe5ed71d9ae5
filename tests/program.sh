#!/bin/sh
# Runs the built program: what its words, files and streams make of it, and where it refuses a source that it doesn't
# take; then the launcher round it, which adds line and column, tries what isn't built, builds, and has pages. Prints a
# line for each case that went otherwise, and at the end how many passed.
#
# In the source of a case that is refused, the place that has to be named stands between « and ».
# shellcheck disable=SC1091
. "$(dirname "$0")/built.sh"

out=$folder/out
err=$folder/err
passed=0
failed=0

for part in judging words tokens grammar small_limits limits types means printing stack examples launcher pointing trials builds pages; do
    # shellcheck disable=SC1090
    . "$top/tests/program/$part.sh"
done

echo "$passed passed, $failed failed"
[ "$failed" = 0 ]
