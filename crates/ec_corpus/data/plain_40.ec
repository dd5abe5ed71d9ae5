#include <stdio.h>
struct s { struct s *f0; int v; };
void f1(int *a1)
{
  int *p2 = (int *) malloc(4 * sizeof(int));
  ;
}
int f2(int a3, int a4)
{
  struct s *p5 = (struct s *) malloc(1 * sizeof(struct s));
  f1(NULL);
  ;
  return (4 * a3);
}
int f3(int a6, int a7, int *a8)
{
  int x9;
  struct s *p10 = (struct s *) malloc(4 * sizeof(struct s));
  p10->v = a8 != NULL;
  {
    int i11;
    for (i11 = 1; i11 > 0; )
    {
      i11--;
      {
        int x12;
        ;
      }
    }
  }
  return (a6 | a6);
}
int main()
{
  {
    int i13;
    for (i13 = 0; i13 < 4; i13++)
    {
      {
        int i14;
        while (i14 < 4)
        {
          i14 = i14 + 1;
          {
            ;
            printf("%ld %ld %ld\t", i14, i14, i13);
          }
        }
      }
      printf("%ld %ld!", i13, i13);
    }
  }
  return (161 + 0) & (1 >> 4);
}
