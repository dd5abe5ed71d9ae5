# shellcheck shell=sh
# The examples.

# ---- examples

expect 'answer.ec' 0 '42\n' 'result 0\n' -- run "$top/examples/answer.ec"
expect 'answer.ec, checked' 0 'accepted\n' '' -- check "$top/examples/answer.ec"
for file in "$top"/examples/*.ec; do
    prints "${file##*/}" "$file"
done

# leaves FILE PLACE: the example is refused with 9 at its parallel sequence or `forall`, which stands there
leaves() {
    expect "$1, checked" 2 '' "refused 9 at $2 NotYet\n" -- check "$top/examples/$1"
}
leaves fib.ec       204..260
leaves list.ec      584..720
leaves matrix.ec    745..888
leaves quicksort.ec 1301..1361
leaves squares.ec   207..248
leaves tree.ec      347..415
leaves treesum.ec   623..711

# answers FILE OUT RESULT INT..: what the example means with these numbers
answers() {
    name=$1 shows=$2 gave=$3
    shift 3
    expect "$name, evaluated with '$*'" 0 "$shows" "result $gave\n" -- means "$top/examples/$name" "$@"
}
answers answer.ec    '42\n' 0
answers fib.ec       '0\n' 0
answers fib.ec       '55\n' 0 10
answers list.ec      '2\n' 0
answers matrix.ec    '30 36 42\n66 81 96\n102 126 150\n' 0
answers quicksort.ec '1 1 2 3 4 5 6 9\n' 0
answers quicksort.ec '1 1 2 2 2 7 8 8 8 8\n' 0 2718281828
answers squares.ec   '0\n1\n4\n9\n16\n25\n36\n49\n64\n81\n' 0
answers tree.ec      '' 2
answers treesum.ec   '1 + 2 + .. + 100 = 5050\n' 0
answers treesum.ec   '1 + 2 + .. + 10 = 55\n' 0 10

# the comment of an example has the lines that it prints
for file in matrix quicksort treesum; do
    status=0
    "$program" means "$top/examples/$file.ec" >printed 2>"$err" </dev/null || status=$?
    while read -r line; do
        grep -q -e "^     $line" "$top/examples/$file.ec" || echo "no line '$line'"
    done <printed >"$out"
    judge "the comment of $file.ec" 0 '' 'result 0\n'
done

# what is tried byte by byte, and what is run, are copies of the examples
for file in "$top"/examples/*.ec; do
    cmp "$file" "$top/crates/ec_variants/data/${file##*/}" >"$out" 2>&1
    grep -F -x -q -- "${file##*/}" "$top/crates/ec_variants/args" || echo 'not tried' >>"$out"
    : >"$err"
    status=0
    judge "the copy of ${file##*/}" 0 '' ''
done
cmp "$top/examples/answer.ec" "$top/crates/ec_main/data/answer.ec" >"$out" 2>&1
judge 'the copy that is run' 0 '' ''
