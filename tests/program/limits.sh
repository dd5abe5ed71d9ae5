# shellcheck shell=sh
# The limits of the whole language.

# ---- the deepest nesting, in each of the ways that open it

b64=$(repeat 64 '{') e64=$(repeat 64 '}')

# blocks COUNT STATEMENT: a program of so many blocks, one in another, with the statement in the last
blocks() {
    printf 'int main(){%.*s%s%.*s}' "$1" "$b64" "$2" "$1" "$e64"
}

# opens NAME LEVELS STATEMENT: the marked token, so many levels deeper than the statement, may stand at a nesting of 64,
# and is too deep where the statement stands in one block more
opens() {
    before=${3%%«*}
    after=${3#*«}
    place=${after%%»*}
    fits "$1, 64 deep" "$(blocks $((63 - $2)) "$before$place${after#*»}")"
    deepens "$1, 65 deep" "$(blocks $((64 - $2)) "$3")"
}

opens 'a block'             1 '{«;»}'
opens 'an empty block'      1 '{«}»'
opens 'a sequence'          1 '{^«;»^}'
opens 'an empty sequence'   1 '{^«^}»'
opens 'a bracket'           1 'return («1»);'
opens 'an index'            1 'return a[«1»];'
opens 'an index, set'       1 'a[«1»] = 1;'
opens 'minus'               1 'return -«1»;'
opens 'not'                 1 'return !«1»;'
opens 'a complement'        1 'return ~«1»;'
opens 'a star'              1 'return *«p»;'
opens 'a star, set'         1 '*«p» = 1;'
opens 'an address'          1 'return &«x»;'
opens 'a call'              1 'f(«1»);'
opens 'a call of nothing'   1 'f(«)»;'
opens 'a call, used'        1 'return f(«1»);'
opens 'valueof'             1 'return valueof(«x»);'
opens 'writeto'             1 'writeto(«x», 1);'
opens 'addto'               1 'addto(«x», 1);'
opens 'printf, values'      1 'printf(«"a"»);'
opens 'a condition'         1 'if («1») ;'
opens 'a loop condition'    1 'while («1») ;'
opens 'a header'            1 'for («;»;) ;'
opens 'a parallel header'   1 'forall («i» = 1; 1; i++) ;'
opens 'a block of memory'   2 'return malloc(sizeof(«int»));'
opens 'several of them'     2 'return malloc(1 * sizeof(«int»));'
opens 'an owner'            2 'f()@OWNER_OF(-«p»);'
opens 'a node'              2 'f()@NODE(-«1»);'
opens 'the body of if'      2 'if (1) return -«1»;'
opens 'the body of else'    2 'if (1) ; else return -«1»;'
opens 'the body of while'   2 'while (1) return -«1»;'
opens 'the body of for'     2 'for (;;) return -«1»;'
opens 'the body of forall'  2 'forall (i = 1; 1; i++) return -«1»;'
opens 'if behind else'      3 'if (1) ; else if (1) return -«1»;'
opens 'else behind if'      3 'if (1) if (1) ; else return -«1»;'
opens 'a sequence as body'  2 'if (1) {^«;»^}'
opens 'an initialiser'      2 '{ int x = («1»); }'
opens 'all that an operand has' 2 'return -p->a[«1»];'
deepens 'a cast, 65 deep'   "$(blocks 63 'return («int»*)malloc(sizeof(int));')"

# what is closed counts no more
opens 'behind a cast'       2 'return (int*)malloc(sizeof(«int»));'
opens 'behind a block'      2 '{ } return (-«1»);'
opens 'a block as body'     2 'if (1) { return -«1»; }'
opens 'behind a body'       2 'while (1) ; return -(«1»);'
opens 'behind if'           2 'if (1) ; return -(«1»);'
opens 'behind a bracket'    2 'return (1) + (-«1»);'
opens 'behind a call'       2 'return f(1)[-«1»];'
opens 'behind an operand'   2 'return -1 + -(«1»);'
opens 'behind else'         2 'if (1) ; else ; return -(«1»);'

# ---- each count at its most, and one past it

# numbered COUNT FORMAT: the format so many times, with 1, 2 and so on
numbered() {
    awk -v count="$1" -v format="$2" 'BEGIN { for (i = 1; i <= count; i++) printf format, i }'
}

s256=$(numbered 256 'struct s%d { int a; };')
fits '256 structs'            "$s256"
passes '257 structs'          "${s256}struct «s» { int a; };"
fits 'a struct that is named' "${s256}struct s *f(){}"
f4096=$(numbered 4096 'void f%d(){}')
fits '4,096 functions'        "$f4096"
printf '%sint g(){}' "$f4096" >case.ec
refused '4,097 functions'     "refused 12 at $((${#f4096} + 4))..$((${#f4096} + 5)) TooMany"
printf '%sstruct s **g(){}' "$f4096" >case.ec
refused '4,097, of pointers'  "refused 12 at $((${#f4096} + 11))..$((${#f4096} + 12)) TooMany"
fits 'beside structs'         "$f4096$s256"

p7=$(numbered 7 'int p%d, ')
fits '8 parameters'           "void f(${p7}local struct s *p){}"
passes '9 parameters'         "void f(${p7}int p, shared int *«q»){}"
passes '9, and a brace'       "void f(${p7}int p, int «q»{}"
d248=$(decls 248)
d255=$(decls 255)
fits '8 and 248 variables'    "void f(${p7}int p){ $d248}"
passes '8 and 249 variables'  "void f(${p7}int p){ ${d248}int «v»; }"
fits '256 in blocks'          "void f(){ ${d255}{ int v; } }"
passes '257 in blocks'        "void f(){ ${d255}{ int v; } { int «w»; } }"
passes '257 in one list'      "void f(){ ${d255}int v, «w»; }"
fits 'anew in each function'  "void f(){ $d256} void g(){ $d256}"

h64=$(repeat 64 ';')
fits '64 branches'            "int main(){ {^$h64^} }"
passes '65 branches'          "int main(){ {^$h64«{»}^} }"
fits 'anew in each sequence'  "int main(){ {^{^$h64^}{^$h64^}^} }"

# what a name of 65 bytes may not be
while read -r source; do
    fits "$source, 64" "$(printf '%s' "$source" | sed "s/NAME/$n64/")"
    passes "$source, 65" "$(printf '%s' "$source" | sed "s/NAME/«${n64}n»/")"
done <<'END'
struct NAME { int a; };
struct s { int *NAME; };
struct s { int a, NAME[2]; };
struct s { struct NAME *a; };
struct NAME *f(){}
void *NAME(){}
void f(struct NAME *a){}
void f(int NAME){}
void f(){ int a, *NAME; }
void f(){ struct NAME *a; }
void f(){ NAME = 1; }
void f(){ NAME++; }
void f(){ NAME(); }
void f(){ return NAME; }
void f(){ return NAME(1); }
void f(){ return &NAME; }
void f(){ return a->NAME; }
void f(){ return a.NAME; }
void f(){ return malloc(sizeof(struct NAME)); }
END

# the operators and brackets of each part
while read -r plus source; do
    fits "$source, 256" "$(printf '%s' "$source" | sed "s/MANY/$(repeat "$plus" +1)/")"
    passes "$source, 257" "$(printf '%s' "$source" | sed "s/MANY/$(repeat "$plus" +1)«+»1/")"
done <<'END'
256 void f(){ if (1MANY) ; }
256 void f(){ while (1MANY) ; }
255 void f(){ for (x = 1MANY; 1; x++) ; }
256 void f(){ for (x = 1; 1MANY; x++) ; }
255 void f(){ for (x = 1; 1; x = 1MANY) ; }
255 void f(){ forall (x = 1MANY; 1; x++) ; }
256 void f(){ forall (x = 1; 1MANY; x++) ; }
255 void f(){ forall (x = 1; 1; x = 1MANY) ; }
256 void f(){ int a = 1, **b = 1MANY; }
255 void f(){ a = 1MANY; }
253 void f(){ a[1] = 1MANY; }
254 void f(){ *a = 1MANY; }
254 void f(){ a = -1MANY; }
254 void f(){ a = &b MANY; }
254 void f(){ a = b->c MANY; }
254 void f(){ a = b.c MANY; }
252 void f(){ a = b()@HOME MANY; }
251 void f(){ a = valueof(&b) + 1MANY; }
247 void f(){ a = (int**)malloc(sizeof(int)) MANY; }
248 void f(){ a = malloc(1 * sizeof(int**)) MANY; }
END
fits 'a call, 256'          "void f(){ f(1$p254); }"
passes 'a call, 257'        "void f(){ f(1$p254+1«)»; }"
fits 'writeto, 256'         "void f(){ writeto(a, 1$p254); }"
passes 'writeto, 257'       "void f(){ writeto(a, 1$p254+1«)»; }"
fits 'addto, 256'           "void f(){ addto(1+1, 1$p253); }"
passes 'addto, 257'         "void f(){ addto(1+1, 1$p254«)»; }"
fits 'no part of a header'  "void f(){ a = 1$p255; if (1$p256) while (1$p256) for (a = 1$p255; 1$p256; a = 1$p255) ; }"
a256=$(repeat 256 '->a')
fits '256 arrows'           "void f(){ return a$a256; }"
passes '257 arrows'         "void f(){ return a$a256«->»a; }"
fits '256, half of them minus'           "void f(){ return 1$(repeat 128 '+-1'); }"
passes '257, half of them minus' "void f(){ return 1$(repeat 128 '+-1')«+»-1; }"

# ---- the first of two refusals, and the one of two at a token that has the lowest number

unexpected 'nowhere, too deep'      "$(blocks 64 '«)»')"
unexpected 'nowhere, 257 marks'     "int main(){ return 1$p256«)»; }"
unexpected 'nowhere, a long name'   "int main(){ return 1 «${n64}n»; }"
unexpected 'nowhere, a long string' "int main(){ return «\"${a254}bc\"»; }"
unexpected 'nowhere, 9 values'      'int main(){ printf("", 1, 2, 3, 4, 5, 6, 7, 8, «)»; }'
unexpected 'nowhere, 9 parameters'  "int main(${p7}int p, int «1»){ }"
unexpected 'nowhere, 65 branches'   "int main(){ {^$h64«)»^} }"
unexpected 'nowhere, 257 structs'   "${s256}struct s«;»"
unexpected 'nowhere, 257 variables' "int main(){ ${d256}int «1»; }"
deepens 'too deep, 257 marks'       "int main(){ return 1$(repeat 191 +1)+$o63(«-»1; }"
deepens 'too deep, a long name'     "$(blocks 64 "«${n64}n» = 1;")"
deepens 'too deep, a long string'   "$(blocks 63 "printf(«\"${a254}bc\"»);")"
passes 'too many, then nowhere'     "int main(){ int «${n64}n»; ) }"
deepens 'too deep, then too many'   "$(blocks 64 "«;» ${n64}n = 1;")"
unexpected 'nowhere, then too deep' "int main(){ «)» $b64;$e64 }"
refuses 1 BadByte 'no token, behind all' "int main(){ ) ${n64}n $b64;$e64 «\$» }"
refuses 2 BadNumber 'a bad number behind' 'int main(){ ) «1x» }'
printf ')$%1048576s' '' >case.ec
refused 'a byte too many, nowhere' 'refused 7 at 1048576..1048577 TooLong'
