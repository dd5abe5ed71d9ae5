# shellcheck shell=sh
# The deepest nesting and the longest chains under a small stack.

# slim NAME SOURCE: the source is read, printed, evaluated where it is typed, and dropped with a stack of 1 MiB
slim() {
    printf '%s' "$2" >case.ec
    for command in print check means; do
        status=0
        # shellcheck disable=SC3045 # dash and bash have it
        (ulimit -s 1024 && exec "$program" "$command" case.ec) >"$out" 2>"$err" </dev/null || status=$?
        case $command,$status in
            print,0 | check,0) : ;;
            means,0) grep -q '^result ' "$err" && : >"$err" ;;
            check,2 | means,2) grep -q -e '^refused 9 ' -e '^refused 2[0-9] ' "$err" && status=0 && : >"$err" ;;
        esac
        : >"$out"
        judge "$1, $command with a small stack" 0 '' ''
    done
}

# reaches NAME OPENING INSIDE CLOSING REFUSED: 63 of the openings within one another, the inside and as many closings are a
# program that needs little stack; one opening more is refused at the mark
reaches() {
    opened=$(repeat 63 "$2")
    slim "63 $1" "int main(){ $opened$3$(repeat 63 "$4") }"
    deepens "64 $1" "int main(){ $opened$5 }"
}

reaches 'blocks'             '{'                  "return 1$p256;" '}' '{«return» 1; }'
reaches 'sequences'          '{^'                 "a = p$(repeat 255 '->p');" '^}' '{^«;» ^}'
reaches 'if'                 'if (1) '            "a = p$(repeat 255 .p);" '' 'if («1») ;'
reaches 'else if'            'if (1) ; else '     "return 1$p256;" '' 'if («1») ;'
reaches 'else if of blocks'  'if (1) { } else '   '{ }' '' 'if («1») ;'
reaches 'while'              'while (1) '         "return 1$p256;" '' 'while («1») ;'
reaches 'for'                'for (;;) '          "return 1$p256;" '' 'for («;»;) ;'
reaches 'forall'             'forall (i=1;1;i++)' "return 1$p256;" '' 'forall («i»=1;1;i++) ;'
reaches 'blocks of forall'   'forall (i=1;1;i++){' "return 1$p256;" '}' 'forall («i»=1;1;i++) { }'

# within NAME OPENING INSIDE CLOSING REFUSED: the same of what is opened in a statement
within() {
    opened=$(repeat 63 "$2")
    slim "63 $1" "int main(){ return $opened$3$(repeat 63 "$4"); }"
    deepens "64 $1" "int main(){ return $opened$5; }"
}

within 'brackets'            '('       "1$(repeat 130 +1)" ')' '(«1»)'
within 'indices'             'a['      "1$(repeat 130 +1)" ']' 'a[«1»]'
within 'calls'               'f('      "1$(repeat 130 +1)" ')' 'f(«1»)'
within 'valueof'             'valueof(' '1'    ')' 'valueof(«1»)'
within 'minus'               '- '      "p$(repeat 190 '->p')" '' '- «1»'
within 'stars'               '*'       "p$(repeat 190 '->p')" '' '*«1»'
within 'not'                 '!'       "p$(repeat 190 '->p')" '' '!«1»'

slim 'a long sum'            "int main(){ return 1$p256; }"
slim 'a long disjunction'    "int main(){ return 1$(repeat 256 '||1'); }"
slim 'a long path'           "int main(){ return p$(repeat 256 '->p'); }"
slim 'a long path of fields' "int main(){ return p$(repeat 256 .p); }"
slim 'a long path of indices' "int main(){ return p$(repeat 128 '[1]'); }"
slim 'every operator'        "int main(){ return $(repeat 25 '1||1&&1|1^1&1==1<1<<1+1*')1; }"

# lean NAME RESULT SOURCE: the source is evaluated with a stack of 1 MiB
lean() {
    printf '%s' "$3" >case.ec
    status=0
    # shellcheck disable=SC3045
    (ulimit -s 1024 && exec "$program" means case.ec) >"$out" 2>"$err" </dev/null || status=$?
    judge "$1, evaluated with a small stack" 0 '' "result $2\n"
}

lean '63 indices'   0 "int main(){ int *a; a = malloc(sizeof(int)); return $(repeat 63 'a[')0$(repeat 63 ']'); }"
lean '63 calls'     7 "int f(int x){ return x; } int main(){ return $(repeat 63 'f(')7$(repeat 63 ')'); }"
lean '63 minus'     -1 "int main(){ return $(repeat 63 '- ')1; }"
lean '63 brackets'  131 "int main(){ return $(repeat 63 '(')1$(repeat 130 +1)$(repeat 63 ')'); }"
lean '63 blocks'    5 "int main(){ int x; $(repeat 62 '{')x = 5;$(repeat 62 '}') return x; }"
lean '63 sequences' 5 "int main(){ int x; $(repeat 62 '{^')x = 5;$(repeat 62 '^}') return x; }"
lean '63 conditions' 5 "int main(){ int x; $(repeat 62 'if (1) ')x = 5; return x; }"
lean '256 sums'     257 "int main(){ return 1$(repeat 256 +1); }"
lean '256 arrows'   0 "struct s { struct s *p; }; int main(){ struct s *p; p = malloc(sizeof(struct s)); p->p = p; return p$(repeat 255 '->p') == NULL; }"
lean '512 activations' 510 'int d(int n){ int r; if (n == 0) { return 0; } r = d(n - 1); return r + 1; } int main(){ return d(510); }'
lean 'a list of 100,000 cells' 99999 'struct s { int v; struct s *p; }; int main(){ struct s *p; struct s *q; int i;
    for (i = 0; i < 100000; i++) { q = malloc(sizeof(struct s)); q->v = i; q->p = p; p = q; } return p->v; }'
