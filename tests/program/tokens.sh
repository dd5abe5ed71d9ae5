# shellcheck shell=sh
# What programs mean, and what their tokens are.

# ---- what programs mean

gives 'variables'      '-3 9%\n' 0 'int main(){ int x = 2; x = x - 5; printf("%d %d%%\n", x, x * x); return x + 3; }'
gives 'a result'       '' 7 'int main(){ return 7; }'
gives 'below zero'     '' -5 'int main(){ return 0 - 5; }'
gives 'the left first' '' 5 'int main(){ return 10 - 3 - 2; }'
gives 'products first' '' 14 'int main(){ return 2 + 3 * 4; }'
gives 'brackets first' '' 20 'int main(){ return (2 + 3) * 4; }'
gives 'the most'       '' 9223372036854775807 'int main(){ return 9223372036854775807; }'
gives 'one more'       '' -9223372036854775808 'int main(){ return 9223372036854775807 + 1; }'
gives 'one less'       '' 9223372036854775807 'int main(){ return 0 - 9223372036854775807 - 2; }'
gives 'a long product' '' -9223372036709301616 'int main(){ return 3037000500 * 3037000500; }'
gives 'zero at first'  '0 0\n' 0 'int main(){ int x; int y = y; printf("%d %d\n", x, y); return x; }'
gives 'in its own'     '' 0 'int main(){ int x = x; return x; }'
gives 'earlier names'  '' 6 'int main(){ int x = 2; int y = x + 1; x = x * y; return x; }'
gives 'three prints'   'ab-1\n' 0 'int main(){ printf("a"); printf("b"); printf("%ld\n", 0 - 1); return 0; }'
gives 'no bytes'       '' 0 'int main(){ printf(""); return 0; }'
gives 'escapes'        'a\tb\\c"\n' 0 'int main(){ printf("a\tb\\c\"\n"); return 0; }'
gives 'per cents'      '%d%%ld' 0 'int main(){ printf("%%d%%%%ld"); return 0; }'
gives 'other bytes'    'é' 0 'int main(){ printf("é"); return 0; }'
gives 'main as a name' '' 3 'int main(){ int main = 3; return main; }'

# ---- what stands between tokens

gives 'no blanks'        '' 1 'int main(){int _x1;_x1=1;return _x1;}'
gives 'void'             '' 0 'int main(void){ return 0; }'
gives 'lines'            '' 0 '
	int main()
{	return 0;
}
'
gives 'comments'         '4' 0 '/**/int/* * / " **/main(){ // "
printf("%d"/*,*/, 4); return 0; } // end'
gives 'comments inside'  '//*/' 0 'int main(){ printf("//*/"); return 0; }'
gives 'a header line'    '' 0 '#include <stdio.h>
int main(){ return 0; }'
gives 'more such lines'  '' 0 'int main(){
  #	include<a> # " /*
#include <b
return 0; }'
gives 'blanks and a <'   '' 0 '#  include<
int main(){ return 0; }'
gives 'a quote behind <' '' 0 '#include <"
int main(){ return 0; }'
gives '/ between'        '' 0 'int main(){ return 0; } /*/*/'

refuses 3 OpenComment 'a comment, open'  'int main(){ «/* return 0; }
»'
refuses 3 OpenComment 'at the end, open' 'int main(){ return 0; } «/*/»'
refuses 3 OpenComment 'two bytes'        '«/*»'
refuses 6 HashLine    'a line, define'   '«#define X»
int main(){ return 0; }'
refuses 6 HashLine    'a line, quote'    '«#include "a"»
int main(){ return 0; }'
refuses 6 HashLine    'a line, no angle' 'int main(){
 «# include»
<a> return 0; }'
refuses 6 HashLine    'a line, includes' '«#includes <a>»'
refuses 6 HashLine    'a line, a mark'   '«#»'
refuses 1 BadByte     'inside a line'    'int main(){ «#»include <a>
return 0; }'
refuses 1 BadByte     'behind a comment' '/* */ «#»include <a>
int main(){ return 0; }'
refuses 1 BadByte     'behind its end'   'int main(){ return 0; } /*
*/ «#»include <a>'
refuses 1 BadByte     'no token'         'int main(){ return 0 «$»; }'
refuses 1 BadByte     'a quote'          "int main(){ return «'»a'; }"
refuses 1 BadByte     'a backslash'      'int main(){ «\» }'
refuses 1 BadByte     'the first of two' 'int main(){ «$» /* }'

# at NUMBER KIND PLACE NAME FORMAT: the source that printf makes of the format is refused at the place
at() {
    # shellcheck disable=SC2059
    printf "$5" >case.ec
    refused "$4" "refused $1 at $3 $2"
}
at 27 NoMain 0..0   'the empty file'          ''
at 27 NoMain 2..2   'nothing but blanks'      ' \n'
at 1 BadByte 0..1   'a byte order mark'       '\357\273\277int main(){ }'
at 1 BadByte 12..13 'a zero byte'             'int main(){ \000 return 0; }'
at 1 BadByte 12..13 'a form feed'             'int main(){ \014 return 0; }'
at 1 BadByte 16..17 'a letter beyond ASCII'   'int main(){ int \303\251; }'
at 1 BadByte 21..22 'a delete in a string'    'int main(){ printf("a\177"); }'
at 1 BadByte 21..22 'a tab in a string'       'int main(){ printf("a\tb"); }'
at 1 BadByte 21..22 'a CR in a string'        'int main(){ printf("a\r"); }'
at 4 OpenString 19..27 'a tab in an open string' 'int main(){ printf("a\tb); }'
at 5 BadEscape 21..23 'an escaped tab'        'int main(){ printf("a\\\tb"); }'
at 5 BadEscape 21..23 'an escaped zero byte'  'int main(){ printf("a\\\000"); }'
at 5 BadEscape 21..23 'an escaped delete'     'int main(){ printf("a\\\177"); }'
