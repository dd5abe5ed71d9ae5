# shellcheck shell=sh
# What the launcher adds to a refusal and to a trap: its place, a sentence, the line and a marker.

# points NAME COMMAND FORMAT TEXT: of the source that printf makes of the format, the launcher writes the line of the
# program first and then the text
points() {
    # shellcheck disable=SC2059
    printf "$3" >case.ec
    line=$("$program" "$2" case.ec 2>&1 >/dev/null) || :
    launches "$1" 2 '' "$line\n$4\n" -- "$2" case.ec
}

# the forms of a line
points 'a word' run 'int main() {\n  while (1) ;\n}\n' \
    'case.ec:2:3: only small programs run yet, and none has `while` here\n  while (1) ;\n  ^~~~~'
points 'the first byte' check '$' 'case.ec:1:1: stray `$` in the program\n$\n^'
points 'tabs' check '\tint\tmain()\t{ return\t0 0; }' \
    'case.ec:1:24: syntax error: unexpected `0`\n\tint\tmain()\t{ return\t0 0; }\n\t   \t      \t        \t  ^'
points 'characters before it' print 'int main() { /* \303\251\342\202\254\360\237\214\215 */ )' \
    'case.ec:1:24: syntax error: unexpected `)`\nint main() { /* é€🌍 */ )\n                       ^'
points 'characters in it' check 'int main() { printf("\303\251\303\251); }' \
    'case.ec:1:21: this string is not closed on its line: `"` is missing\nint main() { printf("éé); }\n                    ^~~~~~~'
points 'ill bytes' check '/*\351\200\342\202*/ $ \377' 'case.ec:1:10: stray `$` in the program\n/*????*/ $ ?\n         ^'
points 'control bytes' check '/*\033\r\177\302\233*/ $' 'case.ec:1:10: stray `$` in the program\n/*????*/ $\n         ^'
points 'CRLF' check 'int main() {\r\n  return 0 0;\r\n}\r\n' \
    'case.ec:2:12: syntax error: unexpected `0`\n  return 0 0;\n           ^'
points 'CRLF in the place' check 'int main() {\r\n  printf("a);\r\n}\r\n' \
    'case.ec:2:10: this string is not closed on its line: `"` is missing\n  printf("a);\n         ^~~~'
points 'several lines' check 'int main() {\n  /* return\n  0; }\n' \
    'case.ec:2:3: this comment is not closed: `*/` is missing\n  /* return\n  ^~~~~~~~~'
points 'the end of a line' check 'int main() {' 'case.ec:1:13: syntax error: unexpected end of file\nint main() {\n            ^'
points 'behind the last line' check 'int main() {\n' 'case.ec:2:1: syntax error: unexpected end of file\n\n^'
points 'an empty file' check '' 'case.ec:1:1: the file has no main that gives an int and takes ints\n\n^'
points 'nothing but lines' run '\n\n' 'case.ec:3:1: the file has no main that gives an int and takes ints\n\n^'

# a line of more than 80 characters is cut to 74 and dots
forty=$(repeat 40 é)
points '80 characters' check "/*$forty*/ \$$(repeat 34 +)" \
    "case.ec:1:46: stray \`\$\` in the program\n/*$forty*/ \$$(repeat 34 +)\n$(repeat 45 ' ')^"
points '81 characters' check "/*$forty*/ \$$(repeat 35 +)" \
    "case.ec:1:46: stray \`\$\` in the program\n...$(repeat 35 é)*/ \$$(repeat 35 +)\n$(repeat 41 ' ')^"
points 'a cut end' check "\$$(repeat 80 +)" "case.ec:1:1: stray \`\$\` in the program\n\$$(repeat 73 +)...\n^"
points 'both ends cut' check "/*$(repeat 5000 é)*/ \"$(repeat 5000 é)\n" \
    "case.ec:1:5006: this string is not closed on its line: \`\"\` is missing\n...$(repeat 34 é)*/ \"$(repeat 36 é)...\n$(repeat 40 ' ')^$(repeat 36 '~')"
for count in 790 797 798 799 800 801 802; do
    points "$count bytes, and a line before" check "// ééé\n/*$(repeat "$((count - 5))" e)*/ \$" \
        "case.ec:2:$((count + 1)): stray \`\$\` in the program\n...$(repeat 70 e)*/ \$\n$(repeat 76 ' ')^"
    points "$count characters, and a line before" check "// ééé\n/*$(repeat "$((count - 5))" é)*/ \$" \
        "case.ec:2:$((count + 1)): stray \`\$\` in the program\n...$(repeat 70 é)*/ \$\n$(repeat 76 ' ')^"
done
awk 'BEGIN { print "int main() {"; for (i = 0; i < 149794; i++) print "// é"; print "  $" }' >long.ec
launches 'a megabyte of lines' 2 '' \
    'refused 1 at 898779..898780 BadByte\nlong.ec:149796:3: stray `$` in the program\n  $\n  ^\n' -- check long.ec
awk 'BEGIN { printf "/*"; for (i = 0; i < 500000; i++) printf "é"; print "*/ $" }' >long.ec
launches 'a megabyte in a line' 2 '' \
    "refused 1 at 1000005..1000006 BadByte\nlong.ec:1:500006: stray \`\$\` in the program\n...$(repeat 70 é)*/ \$\n$(repeat 76 ' ')^\n" \
    -- check long.ec

# the sentences
points 'a byte order mark' check '\357\273\277int' 'case.ec:1:1: stray byte 0xEF: no byte order mark may stand before a program\n?int\n^'
points 'a letter beyond ASCII' check 'int \303\251;' 'case.ec:1:5: stray `é` outside strings and comments\nint é;\n    ^'
points 'a byte beyond ASCII' check 'int \351;' 'case.ec:1:5: stray byte 0xE9 outside strings and comments\nint ?;\n    ^'
points 'a control byte' check 'int \014' 'case.ec:1:5: stray control byte 0x0C\nint ?\n    ^'
points 'a tab in a string' check '"\t"' 'case.ec:1:2: a tab in a string: write \\t\n"\t"\n ^'
points 'a CR in a string' check '"\r"' 'case.ec:1:2: a carriage return in a string\n"?"\n ^'
points 'a hash' check 'int #' 'case.ec:1:5: stray `#`: it may only begin a line\nint #\n    ^'
points 'a character constant' check "int '" "case.ec:1:5: stray \`'\`: there are no character constants\nint '\n    ^"
points 'a backslash' check '\\' 'case.ec:1:1: stray `\\` in the program\n\\\n^'
points 'letters in a number' check 'int 12ab' 'case.ec:1:5: `12ab` is no number: only digits may stand in it\nint 12ab\n    ^~~~'
points 'zeros in front' check '007' 'case.ec:1:1: `007` has needless zeros in front, and numbers are decimal\n007\n^~~'
points 'a large number' check '9223372036854775808' \
    'case.ec:1:1: `9223372036854775808` is too large: the largest number is 9223372036854775807\n9223372036854775808\n^~~~~~~~~~~~~~~~~~~'
points 'a long number' check "$(repeat 30 9)" \
    "case.ec:1:1: \`$(repeat 24 9)..\` is too large: the largest number is 9223372036854775807\n$(repeat 30 9)\n^$(repeat 29 '~')"
points 'an escape' print '"\\%%"' 'case.ec:1:2: unknown escape `\\%`: strings have \\n, \\t, \\\\ and \\"\n"\\%"\n ^~'
points 'a line with #' print '#if 0\n' 'case.ec:1:1: a line that begins with `#` must go on as `include <`\n#if 0\n^~~~~'
points 'a missing ;' print 'int f() {\n  return 0\n}' 'case.ec:3:1: syntax error: unexpected `}`: is a `;` missing?\n}\n^'
points 'an odd string' print 'int f() { "a" }' 'case.ec:1:11: syntax error: unexpected string\nint f() { "a" }\n          ^~~'
points 'an unknown name' run 'int main() { return rest; }' \
    'case.ec:1:21: `rest` isn\047t declared here\nint main() { return rest; }\n                    ^~~~'
points 'a string that asks for no int' run 'int main() { printf("%%s"); return 0; }' \
    'case.ec:1:14: types don\047t go together\nint main() { printf("%s"); return 0; }\n             ^~~~~~~~~~~~'
points 'a parallel sequence' check 'int main() { {^ ; ^} }' \
    'case.ec:1:14: parallel sequences and foralls are not built yet\nint main() { {^ ; ^} }\n             ^~~~~~~'
points 'a string that does not run' run 'int main() { int x; x = 1; { printf("a"); } return 0; }' \
    'case.ec:1:28: only small programs run yet, and none has `{` here\nint main() { int x; x = 1; { printf("a"); } return 0; }\n                           ^'
points 'too deep' print "int main() { $(repeat 64 '{') }" \
    "case.ec:1:79: nested more than 64 deep\nint main() { $(repeat 64 '{') }\n$(repeat 78 ' ')^"
points 'a long name' print "struct $(repeat 65 a)" \
    "case.ec:1:8: this name has more than 64 bytes\nstruct $(repeat 65 a)\n       ^$(repeat 64 '~')"
points 'a long string' print "int f() { printf(\"$(repeat 256 a)\"); }" \
    "case.ec:1:18: this string stands for more than 255 bytes\nint f() { printf(\"$(repeat 56 a)...\n                 ^$(repeat 56 '~')"
points 'many parameters' print "int f($(repeat 8 'int a, ')int b)" \
    "case.ec:1:67: one more than a limit allows: 'earthc --explain 12' has the limits\nint f($(repeat 8 'int a, ')int b)\n$(repeat 66 ' ')^"

# ---- traps

# traps NAME OUT KIND FORMAT TEXT INT..: with these numbers the meaning of the source that printf makes of the format traps
# at the mark; behind the line of the program the launcher writes the text
traps() {
    name=$1 written=$2 kind=$3 shows=$5
    # shellcheck disable=SC2059
    marked "$(printf "$4")"
    shift 5
    launches "$name" 3 "$written" "trap $kind at $place\n$shows\n" -- means case.ec "$@"
}

traps 'an index' '' Bounds 'int main(){ int *p;\n  p = malloc(sizeof(int));\n  return «p[1]»; }' \
    'case.ec:3:10: an index here is below 0, or not below the number of elements\n  return p[1]; }\n         ^~~~'
traps 'NULL' '' Null 'struct s { int v; };\nint main(){ struct s *p; return «p->v»; }' \
    'case.ec:2:33: this goes through a pointer that is NULL\nint main(){ struct s *p; return p->v; }\n                                ^~~~'
traps 'a division' 'so\n' DivZero 'int main(int n){ printf("so\\n"); return «1 / n»; }' \
    'case.ec:1:41: this divides by 0\nint main(int n){ printf("so\\n"); return 1 / n; }\n                                        ^~~~~'
traps 'a remainder of numbers' '' DivZero 'int main(int a, int b){ return «a %% b»; }' \
    'case.ec:1:32: this divides by 0\nint main(int a, int b){ return a % b; }\n                               ^~~~~' 7 0
traps 'a size' '' BadSize 'int main(int n){ int *p; p = «(int *) malloc(n * sizeof(int))»; return 0; }' \
    'case.ec:1:30: this asks for fewer than 1 element, or for more than 1,048,576 cells\nint main(int n){ int *p; p = (int *) malloc(n * sizeof(int)); return 0; }\n                             ^~~~~~~~~~~~~~~~~~~~~~~~~~~~~~~' 1048577
traps 'several lines of a division' '' DivZero 'int main(){ return «1\n/ 0»; }' \
    'case.ec:1:20: this divides by 0\nint main(){ return 1\n                   ^'
printf 'int main(int n){ return 1 / n; }' >case.ec
launches 'no trap' 0 '' 'result 1\n' -- means case.ec 1
: >"$out"
status=0; "$house/earthc" means case.ec 2>/dev/full >"$out" || status=$?
: >"$err"; judge 'launcher, err full, a trap' 6 '' ''
status=0; "$house/earthc" means /dev/stdin <case.ec >"$out" 2>"$err" || status=$?
judge 'launcher, a stream, a trap' 3 '' 'trap DivZero at 24..29\n'

# ---- files

# where FILE can't be read again, or isn't sure, nothing is added
printf '$' >case.ec
status=0; "$house/earthc" check /dev/stdin <case.ec >"$out" 2>"$err" || status=$?; judge 'launcher, a stream' 2 '' "$plain"
status=0; printf '$' | "$house/earthc" check /dev/stdin >"$out" 2>"$err" || status=$?; judge 'launcher, a pipe' 2 '' "$plain"
printf '$' >pipe &
launches 'a named pipe' 2 '' "$plain" -- check pipe
wait
launches 'a file with no end' 2 '' 'refused 7 at 1048576..1048577 TooLong\n' -- check /dev/zero
for file in - ./-x 'a b.ec' 'a=b.ec' 'a\b.ec' é.ec "$PWD/case.ec"; do
    cp case.ec "$file" 2>/dev/null
    name=$(printf '%s' "$file" | sed 's/\\/\\\\/')
    launches "$file" 2 '' "$plain$name:1:1: stray \`\$\` in the program\n\$\n^\n" -- print "$file"
done
