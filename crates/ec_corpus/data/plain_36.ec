#include <stdio.h>
struct s { int v; struct s *f1; struct s *f2; int f0; };
void f1(int a1, int a2)
{
  int x3 = NULL == NULL;
  if (((a1 % 5) && NULL))
  {
    struct s *p4 = (struct s *) malloc(4 * sizeof(struct s));
    struct s *p5 = (struct s *) malloc(3 * sizeof(struct s));
    ;
    ;
    p5[2] = p4[2];
  }
  ;
  ;
  x3++;
  ;
}
int main()
{
  struct s *p6 = (struct s *) malloc(1 * sizeof(struct s));
  if ((p6 == p6))
  {
    if (698)
    {
      int x7 = 0;
      printf("%ld\n", x7);
    }
    p6[0] = p6[0];
  }
  if ((p6 || ((578))))
  {
    struct s *p8 = (struct s *) malloc(2 * sizeof(struct s));
    int x9 = p6->v;
    f1(x9 % 2, (7));
  }
  else
  {
    int x10;
    int x11;
    printf("%ld%%", x10);
  }
  if (p6)
  {
    int x12 = (p6->f0) - (p6 != NULL);
    int *p13 = (int *) malloc(3 * sizeof(int));
    printf("%ld %ld %ld;", x12, x12, x12);
    {
      int i14;
      for (i14 = 0; i14 < 1; i14++)
      {
        int x15;
        printf(";");
        f1((1), x15);
      }
    }
  }
  return (9 - 0) - (4 + 5);
}
