#include <stdio.h>
#include <stdlib.h>
struct s { int v; };
int f1(local struct s *a1)
{
  ;
  ;
  printf("%ld\t", 3 - (4 * 5));
  {^
    ;
    ;
  ^}
  if (((990))) return a1 && ((8));
  return 5;
}
int f2(int a2, int a3, int *a4)
{
  if ((struct s *) malloc(sizeof(struct s)))
  {
    int x5;
    x5 = (x5 || x5) <= (103 * 0);
    ;
    {
      int i6;
      forall (i6 = 0; i6 < 0; i6++)
        ;
    }
  }
  if (a4)
  {
    struct s *p7 = (struct s *) malloc(3 * sizeof(struct s));
    ;
    a4[0] = 5 / 9;
    if (((307 + a3) >= 8))
    {
      int x8 = (a3 ^ a2) || (a3 | 2);
      ;
    }
  }
  {
    int i9;
    for (i9 = 3; i9 > 0; )
    {
      i9--;
      {
        int x10 = a2;
        int x11 = 7;
        x10 = ((a3)) && a3;
        {^
          {
            ;
            x11++;
          }
          {
            ;
            a3++;
          }
        ^}
      }
    }
  }
  a3++;
  return 389;
}
void f3(shared int *a12, int a13)
{
  int x14;
  writeto(a12, (!7));
  {
    int i15;
    for (i15 = 0; i15 < 3; i15++)
    {
      int x16 = (valueof(a12)) != (x14 - 3);
      x16++;
      if ((!715))
      {
        int x17;
        x17 = 8;
        x17++;
      }
      x14 = !(valueof(a12));
    }
  }
}
void f4(shared int *a18, local struct s *a19)
{
  shared int h20;
  struct s *p21 = (struct s *) malloc(1 * sizeof(struct s));
  p21->v = ((2)) | (4 << 8);
  p21[0] = *p21;
  ;
}
int main()
{
  ;
  ;
  {^
    {
      int **p22 = (int **) malloc(2 * sizeof(int *));
      ;
      {^
        {
          local struct s *l23 = (struct s *) malloc(4 * sizeof(struct s));
          f2(p22 != p22, 9223372036854775807, NULL);
          f2(5, (1), p22[0]);
        }
      ^}
    }
    ;
    {
      ;
    }
  ^}
  if (((7 ^ 8) + (NULL != NULL)))
  {
    ;
  }
  else
  {
    int x24 = 5;
    int x25;
    {
      int i26;
      while (i26 < 2)
      {
        i26 = i26 + 1;
        {
          int *p27 = (int *) malloc(2 * sizeof(int));
          x25 = f1((struct s *) malloc(sizeof(struct s)));
        }
      }
    }
    x24++;
  }
  return (4294967296 ^ 9);
}