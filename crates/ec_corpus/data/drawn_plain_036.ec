#include <stdio.h>
#include <stdlib.h>
struct s { int v; };
struct tree { int v; };
int f1(struct tree *a1, int a2)
{
  shared int h3;
  shared int h4;
  {^
    {
      struct s *p5 = (struct s *) malloc(3 * sizeof(struct s));
      {^
        p5[2] = *p5;
        {
          shared int h6;
          addto(&h3, a2);
          a2 = a1 == a1;
        }
        addto(&h3, (a2 <= a2) ^ (p5 == NULL));
      ^}
      a1[0] = a1[0];
    }
    a2 = (a1->v) ^ (-a2);
  ^}
  a2 = a2;
  return (a2 || NULL) + (1 | a2);
}
int main(int n7)
{
  f1(NULL, n7 + 777);
  {
    int i8;
    for (i8 = 0; i8 < 2; i8++)
    {
      {
        int i9;
        for (i9 = 1; i9 > 0; )
        {
          i9--;
          {
            printf("%ld %ld %ld\n", n7 + 4, ~(~i9), ((1)) + ((n7)));
            printf("%ld;", (i8 * 2) * n7);
          }
        }
      }
      {^
        {
          f1(NULL, n7);
          n7++;
        }
      ^}
      f1(NULL, (89));
    }
  }
  {
    int i10;
    for (i10 = 0; i10 < 1; i10++)
    {
      {^
        {
          int x11;
          f1(NULL, i10 << 6);
          f1(NULL, (x11));
        }
        f1(NULL, 4 == i10);
        {
          struct tree *p12 = (struct tree *) malloc(1 * sizeof(struct tree));
          f1(p12, n7);
          f1(p12, n7 | i10);
        }
      ^}
    }
  }
  return (n7 > n7) | (n7 + n7);
}
