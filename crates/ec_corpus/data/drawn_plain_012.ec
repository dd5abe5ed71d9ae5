#include <stdio.h>
#include <stdlib.h>
struct s { int f0; int v; };
int *f1(int a1)
{
  int x2;
  ;
  {^
    {
      int x3 = (9223372036854775807 * a1) || (9 - x2);
      ;
      {^
        ;
        ;
        {
          ;
        }
      ^}
    }
  ^}
  ;
  x2 = (NULL != NULL);
  return (int *) malloc(sizeof(int));
}
int main(int n4)
{
  struct s *p5 = (struct s *) malloc(4 * sizeof(struct s));
  p5->v = n4;
  {
    int i6;
    for (i6 = 0; i6 < 2; i6++)
    {
      int x7 = (p5 == p5);
      p5[i6] = p5[2];
    }
  }
  return n4;
}
