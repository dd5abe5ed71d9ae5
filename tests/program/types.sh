# shellcheck shell=sh
# What `check` makes of types: each row of types.tsv has the line that is wanted, `accepted` or a refusal, and the source,
# in which \n is a line feed. The sources take the rules one by one: each refusal in each of its ways, beside its nearest
# accepted neighbour.

row=0
tab=$(printf '\t')
while IFS=$tab read -r wanted source; do
    row=$((row + 1))
    printf '%b' "$source" >case.ec
    case $wanted in
        accepted) expect "row $row of the types" 0 'accepted\n' '' -- check case.ec ;;
        *) expect "row $row of the types" 2 '' "$wanted\n" -- check case.ec ;;
    esac
done <"$top/tests/program/types.tsv"
