#include <stdio.h>
struct s { int f1[4]; int v; struct tree *f0; };
struct tree { int v; };
void f1(struct tree *a1, int a2, int a3)
{
  int x4;
  int x5 = (2 + x4) || ((a3));
  ;
  {^
    {
      shared int h6;
      shared int h7;
      {^
        {
          struct s *p8;
          ;
          p8->f1[3] = valueof(&h6);
        }
        addto(&h7, valueof(&h6));
        addto(&h6, a1->v);
      ^}
    }
  ^}
}
int f2(int a9, int a10)
{
  int x11 = (a10 * 2);
  x11++;
  {^
    f1(malloc(3 * sizeof(struct tree)), x11 - a9, NULL == NULL);
  ^}
  if (((a9)))
  {
    int x12;
    a10++;
    if ((NULL != NULL)) return (NULL == NULL);
  }
  if (7)
  {
    struct tree *p13 = (struct tree *) malloc(1 * sizeof(struct tree));
    if (p13)
    {
      int x14 = ((a9)) - (6 >> a10);
      int x15 = !(7 * x11);
      a10 = (!x14);
      printf("%ld %ld %ld\n", ((a10)) + 5, x11, ((a10)) || ((a9)));
      p13[0] = p13[0];
    }
  }
  a10++;
  return a10;
}
int f3(int a16, shared int *a17)
{
  int r18;
  if (a16 > 0) {^ r18 = f3((a16 & 3) - 1, a17); ; ^}
  if ((r18 & (a16 > r18)))
  {
    shared int h19;
    addto(&h19, ~r18);
  }
  {
    int i20;
    for (i20 = 0; i20 < 1; i20++)
    {
      local struct s *l21 = malloc(2 * sizeof(struct s));
      {
        int i22;
        while (i22 < 1)
        {
          i22 = i22 + 1;
          {
            int x23 = valueof(a17);
            writeto(a17, l21 != l21);
          }
        }
      }
    }
  }
  return valueof(a17);
}
int main(int n24, int n25)
{
  {
    {^
      n24++;
    ^}
    {
      int i26;
      forall (i26 = 0; i26 < 3; i26++)
        ;
    }
  }
  printf("%d %d\n", f2(n24, n25 + n25)@OWNER_OF(NULL), n24);
  {
    int i27;
    while (i27 < 2)
    {
      i27 = i27 + 1;
      {
        {^
          {
            local int **l28 = malloc(2 * sizeof(int *));
            ;
          }
          {
            n24++;
            n25++;
          }
        ^}
      }
    }
  }
  n25++;
  return ~n24;
}
