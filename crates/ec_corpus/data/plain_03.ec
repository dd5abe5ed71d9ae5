#include <stdio.h>
struct s { struct s *f0; int v; };
struct tree { int v; int f1; int f2; struct s *f0; };
struct tree *f1(int a1)
{
  a1++;
  ;
  {
    int i2;
    for (i2 = 0; i2 < 1; i2++)
    {
      struct tree *p3 = (struct tree *) malloc(3 * sizeof(struct tree));
      ;
      ;
    }
  }
  return (struct tree *) malloc(sizeof(struct tree));
}
int main()
{
  struct s *p4 = (struct s *) malloc(4 * sizeof(struct s));
  int x5;
  {
    int i6;
    while (i6 < 3)
    {
      i6 = i6 + 1;
      {
        int *p7 = (int *) malloc(4 * sizeof(int));
        int x8;
        printf("%ld\n", x8);
        {
          int x9 = ((x8)) != i6;
          x8 = ((i6));
        }
      }
    }
  }
  x5 = x5;
  {
    struct s *p10 = (struct s *) malloc(2 * sizeof(struct s));
    printf("%ld %ld\t", x5, x5);
    printf("%ld %ld\t", x5, x5);
    printf("%ld\n", x5);
  }
  ;
  x5 = x5 == 4;
  return (5 && 9) << 1;
}