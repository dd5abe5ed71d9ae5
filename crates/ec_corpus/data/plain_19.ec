#include <stdio.h>
struct s { int v; struct tree *f0; };
struct tree { int v; };
int f1(int *a1, int a2, struct s *a3)
{
  int x4 = (284);
  int x5 = (~a2) && a2;
  ;
  return 4;
}
struct tree *f2()
{
  ;
  ;
  f1(NULL, 4, NULL);
  return (struct tree *) malloc(5 * sizeof(struct tree));
}
int main()
{
  f2();
  {
    int i6;
    while (i6 < 3)
    {
      i6 = i6 + 1;
      {
        int x7 = i6;
        printf("%ld %ld %ld\n", x7, x7, x7);
        x7++;
      }
    }
  }
  return (6 && 136);
}
