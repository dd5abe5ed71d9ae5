#include <stdio.h>
int main() { int **t, *p, i, j, s = 0; t = (int **) malloc(4 * sizeof(int *));
  for (i = 0; i < 4; i++) { t[i] = (int *) malloc((i + 1) * sizeof(int)); p = t[i]; for (j = 0; j <= i; j++) p[j] = i * 10 + j; }
  t[0] = t[3]; *t[0] = 99; **t = **t + 1;
  for (i = 0; i < 4; i++) s = s * 7 + t[i][0]; printf("%ld %ld %ld\n", s, *t[3], t[2][2]); if (t[0] == t[3] && t[1] != t[2]) return 5; return 6; }
