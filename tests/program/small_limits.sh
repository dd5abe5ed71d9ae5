# shellcheck shell=sh
# The limits of small programs.

printf '%s' "int main(){ return $(repeat 64 '(')0$(repeat 64 ')'); }" >deep.ec
for command in run check print; do
    expect "64 brackets, $command" 2 '' 'refused 11 at 83..84 TooDeep\n' -- "$command" deep.ec
done

o62=$(repeat 62 '(') c62=$(repeat 62 ')')
o63="$o62(" c63="$c62)"
gives 'a zero, 63 deep'    '' 0 "int main(){ return ${o63}0$c63; }"
gives 'return, 63 deep'    '' 1 "int main(){ return ${o63}1$c63; }"
gives 'twice 63 deep'      '' 2 "int main(){ return ${o63}1$c63 + ${o63}1$c63; }"
gives 'int x =, 63 deep'   '' 1 "int main(){ int x = ${o63}1$c63; return x; }"
deepens 'int x =, 64 deep' "int main(){ int x = $o63(«1»)$c63; return x; }"
gives 'x =, 63 deep'       '' 1 "int main(){ int x; x = ${o63}1$c63; return x; }"
deepens 'x =, 64 deep'     "int main(){ int x; x = $o63(«1»)$c63; return x; }"
gives 'printf, 62 deep'    1 0 "int main(){ printf(\"%d\", ${o62}1$c62); return 0; }"
deepens 'printf, 63 deep'  "int main(){ printf(\"%d\", $o62(«1»)$c62); return 0; }"

p252=$(repeat 252 +1)
p253=$p252+1
p254=$p253+1
p255=$p254+1
p256=$p255+1
gives 'return, 256'        '' 257 "int main(){ return 1$p256; }"
passes 'return, 257 plus'  "int main(){ return 1$p256«+»1; }"
passes 'return, 257 minus' "int main(){ return 1$p256«-»1; }"
passes 'return, 257 times' "int main(){ return 1$p256«*»1; }"
gives '254 and brackets'   '' 255 "int main(){ return 1$p253+(1); }"
passes '255 and brackets'  "int main(){ return 1$p254+(1«)»; }"
gives 'as many in them'    '' 255 "int main(){ return 1$p252+(1+1); }"
passes 'one more in them'  "int main(){ return 1$p253+(1+1«)»; }"
passes 'one more behind'   "int main(){ return 1$p253+(1)«+»1; }"
passes 'brackets in them'  "int main(){ return 1$p252+((1)«)»; }"
gives 'int x =, 256'       '' 257 "int main(){ int x = 1$p256; return x; }"
passes 'int x =, 257'      "int main(){ int x = 1$p256«+»1; return x; }"
gives 'x =, 255'           '' 256 "int main(){ int x; x = 1$p255; return x; }"
passes 'x =, 256'          "int main(){ int x; x = 1$p255«+»1; return x; }"
gives 'x =, brackets'      '' 254 "int main(){ int x; x = 1$p252+(1); return x; }"
passes 'x =, more of them' "int main(){ int x; x = 1$p253+(1«)»; return x; }"
gives 'printf, 254'        255 0 "int main(){ printf(\"%d\", 1$p254); return 0; }"
passes 'printf, 255'       "int main(){ printf(\"%d\", 1$p254+1«)»; return 0; }"
gives 'two arguments'      '254 2' 0 "int main(){ printf(\"%d %d\", 1$p253, 1+1); return 0; }"
passes 'one more in both'  "int main(){ printf(\"%d %d\", 1$p253, 1+1+1«)»; return 0; }"
passes 'printf, brackets'  "int main(){ printf(\"%d\", 1$p252+(1)«)»; return 0; }"
gives 'anew in each'       255255 257 "int main(){ printf(\"%d\", 1$p254); printf(\"%d\", 1$p254); return 1$p256; }"

d256=$(decls 256)
gives '256 variables'      '' 9 "int main(){ ${d256}v256 = 9; return v256; }"
passes '257 variables'     "int main(){ ${d256}int «v257»; return 0; }"
a254=$(repeat 254 a)
gives 'a string of 255'    "${a254}b" 0 "int main(){ printf(\"${a254}b\"); return 0; }"
passes 'a string of 256'   "int main(){ printf(«\"${a254}bc\"»); return 0; }"
gives 'decoded, 255'       "$a254\n" 0 "int main(){ printf(\"$a254\\n\"); return 0; }"
passes 'decoded, 256'      "int main(){ printf(«\"${a254}b\\n\"»); return 0; }"
gives 'eight arguments'    12345678 0 'int main(){ printf("%d%d%d%d%d%d%d%d", 1, 2, 3, 4, 5, 6, 7, 8); return 0; }'
passes 'nine arguments'    'int main(){ printf("%d%d%d%d%d%d%d%d%d", 1, 2, 3, 4, 5, 6, 7, 8, «9»); return 0; }'
