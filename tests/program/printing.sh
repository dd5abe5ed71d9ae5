# shellcheck shell=sh
# What is printed, and every beginning of a program.

# ---- what is printed

cat >forms.ec <<'END'
#include <stdio.h>
struct s { int a, *b; /* two */ int c[3]; }; // one
int main(void) { int x = 1, y; for (x=0;x<2;x++) { y--; } while(x)if(!x);else{^ f ( ) ; ^}
  printf("a\tb\\\"\n%d é", x); forall (x=0;x<1;x++) f(x)@NODE(1); *a[1]->b.c = (int**)malloc(2*sizeof(int*)); return -x; }
END
cat >wanted.ec <<'END'
struct s {
int a ;
int * b ;
int c [ 3 ] ;
}
;
int main ( ) {
int x = 1 ;
int y ;
for ( x = 0 ; x < 2 ; x = x + 1 ) {
y = y - 1 ;
}
while ( x ) if ( ! x ) ;
else {^
f ( ) ;
^}
printf ( "a\tb\\\"\n%d é" , x ) ;
forall ( x = 0 ; x < 1 ; x = x + 1 ) f ( x ) @ NODE ( 1 ) ;
* a [ 1 ] -> b . c = ( int * * ) malloc ( 2 * sizeof ( int * ) ) ;
return - x ;
}
END
status=0
"$program" print forms.ec >once.ec 2>"$err" </dev/null || status=$?
cmp once.ec wanted.ec >"$out" 2>&1
judge 'every form of a line' 0 '' ''
prints 'what is in lines' wanted.ec

# a canonical text of 8 bytes for each 4 may be longer than a source
printf 'int f(){%s}' "$(repeat 200000 'x=1;')" >case.ec
status=0
"$program" print case.ec >once.ec 2>"$err" </dev/null || status=$?
wc -c <once.ec | tr -d ' ' >"$out"
judge 'a long canonical text' 0 "$((12 + 200000 * 8 + 2))\n" ''
cp once.ec case.ec
refused 'which is no source' 'refused 7 at 1048576..1048577 TooLong'

# ---- every beginning of a program is refused, somewhere in it

printf '%s' '#include <a>
int main(void){ int x = 20; /* c */ int y; // d
x = (x - 1) * 3; printf("%d\t%% %ld\n", x, 0 - y); return x; }' >whole.ec
whole=$(cat whole.ec)
include='#include <'
first='#include <a>.' # with its line feed
comment=${whole%%/\**} comment_end=${whole%%\*/*}
string=${whole%%\"*} string_end=${whole%\"*}

# inside COUNT FROM BEFORE_LAST: whether so many bytes end in what begins after FROM bytes and ends before its last byte
inside() {
    [ "$1" -gt "$2" ] && [ "$1" -le "$3" ]
}

# begins COUNT: the first so many bytes of whole.ec are refused, in what they leave open, or where no program goes on; where
# there is nothing behind the first line they are the empty program
begins() {
    head -c "$1" whole.ec >case.ec
    if inside "$1" 0 $((${#include} - 1)); then
        refused "the first $1 bytes" "refused 6 at 0..$1 HashLine"
    elif inside "$1" $((${#comment} + 1)) $((${#comment_end} + 1)); then
        refused "the first $1 bytes" "refused 3 at ${#comment}..$1 OpenComment"
    elif inside "$1" ${#string} ${#string_end}; then
        refused "the first $1 bytes" "refused 4 at ${#string}..$1 OpenString"
    else
        told='10 Expected'
        [ "$1" -gt "${#first}" ] || told='27 NoMain'
        status=0
        "$program" run case.ec >"$out" 2>"$err" </dev/null || status=$?
        line=$(cat "$err")
        from=${line#refused "${told% *}" at }
        from=${from%%..*}
        to=${line##*..}
        to=${to%% *}
        place="a place in 0..$1"
        case $from-$to in
            -* | *- | *[!0-9-]*) ;;
            *) [ "$from" -le "$to" ] && [ "$to" -le "$1" ] && place=$from..$to ;;
        esac
        judge "the first $1 bytes" 2 '' "refused ${told% *} at $place ${told#* }\n"
    fi
}

expect 'the whole of it' 0 '57\t% 0\n' 'result 57\n' -- run whole.ec
count=$(wc -c <whole.ec)
while [ "$count" -gt 0 ]; do
    count=$((count - 1))
    begins "$count"
done
