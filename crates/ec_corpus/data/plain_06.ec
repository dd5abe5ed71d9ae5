#include <stdio.h>
struct s { int v; struct s *f2; struct s *f0; int *f1; };
int f1(int a1, int a2, struct s *a3)
{
  struct s *p4 = (struct s *) malloc(1 * sizeof(struct s));
  int x5;
  if (((7 == a1)))
  {
    int x6 = (a1 || a2) * (a2 + x5);
    ;
    p4->v = (3 < a2) - (!a1);
    {
      int i7;
      for (i7 = 0; i7 < 4; i7++)
      {
        int x8 = ((x5)) <= (8 == x5);
        int x9 = a2 + (297 * 6);
        p4->v = ~x5;
        ;
      }
    }
  }
  ;
  return (7 > a2) >= (a1 || 8);
}
int main()
{
  printf("-");
  {
    int i10;
    for (i10 = 0; i10 < 2; i10++)
    {
      int *p11 = (int *) malloc(1 * sizeof(int));
      f1(p11[0], i10 > 4, NULL);
      printf("%ld %ld\n", i10, i10);
      f1((i10), i10 <= 0, NULL);
    }
  }
  return (1);
}
