# shellcheck shell=sh
# Programs and what is none, token by token.

# ---- the first token with which no program goes on, or none of those that are built

printf '%s' 'int main(){ while (1) ; return 0; }' >loop.ec
expect 'a loop' 2 '' 'refused 9 at 12..17 NotYet\n' -- run loop.ec

at 10 Expected 18..18 'no result at the end' 'int main(){ return'
expect 'the empty file, printed' 0 '' '' -- print empty.ec
printf '%s' 'int main(){return 0;}' >row22.ec
expect 'printed in lines' 0 'int main ( ) {\nreturn 0 ;\n}\n' '' -- print row22.ec

refuses 22 Mismatch 'another result' 'void main(){ «return 0;» }'
refuses 27 NoMain 'another name' 'int f(){ return 0; }«»'
stops 'a struct'           '«struct» s { int a; }; int main(){ return 0; }'
unexpected 'a prototype'    'int main()«;»'
stops 'a parameter'        'int main(«int» n){ return n; }'
refuses 22 Mismatch 'a void parameter' 'int main(void «x»){ return 0; }'
unexpected 'no body'        'int main()«»'
unexpected 'a parallel body' 'int main()«{^» ^}'
stops 'no statement'       'int main(){ «}»'
stops 'an empty statement' 'int main(){ «;» return 0; }'
stops 'a block'            'int main(){ «{» return 0; } }'
unexpected 'a number'       'int main(){ 1«;» return 0; }'
stops 'an if'              'int main(){ «if» (1) return 0; return 1; }'
refuses 22 Mismatch 'no result' 'int main(){ «return ;» }'
stops 'after the result'   'int main(){ return 0; «printf»("a"); }'
stops 'a second result'    'int main(){ return 0; «return» 0; }'
unexpected 'no last brace'  'int main(){ return 0;«»'
unexpected 'behind the brace' 'int main(){ return 0; } «x»'
unexpected 'one brace more' 'int main(){ return 0; } «}»'
refuses 21 Twice 'two programs' 'int main(){ return 0; } int «main»(){ return 0; }'
refuses 1 BadByte 'a later byte' 'int main(){ while (1) «$»; return 0; }'
refuses 3 OpenComment 'a later comment' 'int main(){ while (1) ; «/* return 0; }»'

stops 'two declarators'    'int main(){ int a«,» b; return 0; }'
stops 'a pointer'          'int main(){ int «*»p; return 0; }'
unexpected 'an array'       'int main(){ int a«[»2]; return 0; }'
unexpected 'a number as a name' 'int main(){ int «1»; return 0; }'
unexpected 'no name'        'int main(){ int «;» return 0; }'
unexpected 'no initialiser' 'int main(){ int x = «;» return 0; }'
stops 'shared'             'int main(){ «shared» int x; return 0; }'
unexpected 'a late declaration' 'int main(){ int x; x = 1; «int» y; return 0; }'
refuses 21 Twice 'declared twice' 'int main(){ int x; int «x»; return 0; }'
refuses 21 Twice 'twice, later' 'int main(){ int x; int y; int z = y; int «x» = 1; return 0; }'
refuses 20 Unknown 'set, undeclared' 'int main(){ «x» = 1; return 0; }'
refuses 20 Unknown 'used, undeclared' 'int main(){ int x; return x + «y»; }'
refuses 20 Unknown 'used too early' 'int main(){ int a = «b»; int b; return a; }'
refuses 20 Unknown 'another case' 'int main(){ int x; return «X»; }'

refuses 20 Unknown 'a call' 'int main(){ int x; «x»(); return 0; }'
stops 'an increment'       'int main(){ int x; x«++»; return 0; }'
unexpected 'adding to'      'int main(){ int x; x «+»= 1; return 0; }'
unexpected 'set twice at once' 'int main(){ int x; int y; x = y «=» 1; return 0; }'
unexpected 'printf, set'    'int main(){ printf «=» 1; return 0; }'
unexpected 'printf, used'   'int main(){ return «printf»("a"); }'
unexpected 'printf of a number' 'int main(){ printf(«1»); return 0; }'
unexpected 'printf of nothing' 'int main(){ printf(«)»; return 0; }'
unexpected 'two strings'    'int main(){ printf("a" «"b"»); return 0; }'
unexpected 'a string, used' 'int main(){ return «"a"»; }'

stops 'minus in front'     'int main(){ return «-»1; }'
stops 'minus after times'  'int main(){ return 2 * «-»3; }'
unexpected 'plus in front'  'int main(){ return «+»1; }'
unexpected 'two minus'      'int main(){ return 1 «--» 1; }'
stops 'minus and minus'    'int main(){ return 1 - «-» 1; }'
stops 'division'           'int main(){ return 6 «/» 2; }'
stops 'a remainder'        'int main(){ return 6 «%» 2; }'
stops 'a comparison'       'int main(){ return 6 «<=» 2; }'
stops 'not'                'int main(){ return «!»1; }'
stops 'a complement'       'int main(){ return «~»1; }'
unexpected 'two numbers'    'int main(){ return 1 «2»; }'
unexpected 'no right side'  'int main(){ return 1 + «;» }'
unexpected 'empty brackets' 'int main(){ return («)»; }'
unexpected 'an open bracket' 'int main(){ return (1«;» }'
unexpected 'a closed bracket' 'int main(){ return 1«)»; }'
refuses 22 Mismatch 'NULL' 'int main(){ «return NULL;» }'

# ---- strings

refuses 4 OpenString 'an open string'     'int main(){ printf(«"abc); return 0; }»'
refuses 4 OpenString 'a string, broken'   'int main(){ printf(«"abc»
"); return 0; }'
refuses 4 OpenString 'a string, escaped'  'int main(){ printf(«"abc\"); return 0; }»'
refuses 4 OpenString 'an escaped line'    'int main(){ printf(«"abc\»
"); return 0; }'
refuses 4 OpenString 'a backslash at last' 'int main(){ printf(«"abc\»'
refuses 4 OpenString 'a bad escape, open' 'int main(){ printf(«"a\q); return 0; }»'
refuses 4 OpenString 'a quote alone'      'int main(){ return 0; } «"»'
refuses 5 BadEscape  'a bad escape'       'int main(){ printf("a«\q»"); return 0; }'
refuses 5 BadEscape  'a bad escape, zero' 'int main(){ printf("%x«\0»"); return 0; }'
refuses 5 BadEscape  'the first of both'  'int main(){ printf("\n«\a»\b"); return 0; }'
gives 'a backslash before the quote' "a\\\\" 0 'int main(){ printf("a\\"); return 0; }'
gives 'a quote, escaped'             'a"' 0 'int main(){ printf("a\""); return 0; }'
refuses 22 Mismatch 'as %x' 'int main(){ «printf("%x", 1)»; return 0; }'
refuses 22 Mismatch 'as %5d' 'int main(){ «printf("%5d", 1)»; return 0; }'
refuses 22 Mismatch 'as %l' 'int main(){ «printf("%l", 1)»; return 0; }'
refuses 22 Mismatch 'a per cent alone' 'int main(){ «printf("%")»; return 0; }'
refuses 22 Mismatch 'a per cent at last' 'int main(){ «printf("%d%%%", 1)»; return 0; }'
refuses 22 Mismatch 'an argument less' 'int main(){ «printf("%d %ld", 1)»; return 0; }'
refuses 22 Mismatch 'no argument' 'int main(){ «printf("%d")»; return 0; }'
refuses 22 Mismatch 'an argument more' 'int main(){ «printf("%d", 1, 2)»; return 0; }'
refuses 22 Mismatch 'a needless one' 'int main(){ «printf("%%", 1)»; return 0; }'
unexpected 'an empty argument' 'int main(){ printf("%d", «)»; return 0; }'

# ---- numbers and names

gives 'zero'               '' 0 'int main(){ return 0; }'
refuses 2 BadNumber 'one past the most' 'int main(){ return «9223372036854775808»; }'
refuses 2 BadNumber 'far past the most' 'int main(){ return «100000000000000000000000»; }'
refuses 2 BadNumber 'needless zeros'    'int main(){ return «007»; }'
refuses 2 BadNumber 'two zeros'         'int main(){ return «00»; }'
refuses 2 BadNumber 'sixteens'          'int main(){ return «0x10»; }'
refuses 2 BadNumber 'a suffix'          'int main(){ return «1L»; }'
refuses 2 BadNumber 'a letter behind'   'int main(){ int «1x»; return 0; }'
refuses 2 BadNumber 'a line behind'     'int main(){ return «1_»; }'
for word in int void struct if else while for forall return local shared malloc sizeof printf NULL writeto addto valueof \
    OWNER_OF HOME NODE ANYWHERE; do
    unexpected "the name $word" "int main(){ int «$word»; return 0; }"
    gives "the name ${word}_" '' 2 "int main(){ int ${word}_ = 2; return ${word}_; }"
done
n64=$(repeat 64 n)
gives 'a name of 64'       '' 5 "int main(){ int $n64 = 5; return $n64; }"
passes 'a name of 65'      "int main(){ int «${n64}n»; return 0; }"
