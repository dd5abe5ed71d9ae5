#include <stdio.h>
#include <stdlib.h>
struct s { int v; struct box *f0; int f1; };
struct tree { int v; struct s *f1; struct tree *f0; };
struct box { int f1; int v; int f0[4]; };
int f1(shared int *a1, int a2)
{
  local struct s *l3 = (struct s *) malloc(3 * sizeof(struct s));
  if (((a2 || l3)))
  {
    int x4 = valueof(a1);
    shared int h5;
    addto(&h5, 4);
    {
      int i6;
      while (i6 < 1)
      {
        i6 = i6 + 1;
        {
          addto(a1, (5 >= x4) * (valueof(a1)));
          addto(&h5, (i6 % 3) + (1 ^ x4));
        }
      }
    }
  }
  if (((a2 * a2) > a2))
  {
    if ((l3 || (valueof(a1))))
    {
      writeto(a1, valueof(a1));
      addto(a1, valueof(a1));
      ;
    }
  }
  a2 = ((6)) << 1;
  return (valueof(a1)) || NULL;
}
int f2(shared int *a7)
{
  {
    ;
  }
  {
    int i8;
    forall (i8 = 0; i8 < 0; i8++)
      addto(a7, (valueof(a7)) + ((i8)));
  }
  addto(a7, (-1) ^ (valueof(a7)));
  return (5 - 6) ^ (257 || 272);
}
void f3(struct tree *a9, shared int *a10)
{
  a9->f0 = a9;
  printf("%ld %ld %ld\t", valueof(a10), (4 | 2) / 7, (32 - 5) | (3 % 9));
}
int f4(int a11)
{
  int x12;
  int x13 = 9 != (x12 + a11);
  if ((int *) malloc(sizeof(int)))
  {
    x12 = ((4));
    ;
  }
  else
  {
    x13++;
    ;
  }
  return (a11 || a11) && NULL;
}
int main()
{
  int x14;
  {
    int i15;
    for (i15 = 0; i15 < 2; i15++)
    {
      int x16;
      int x17 = (x16 << 6);
      x17 = i15;
      {^
        {
          ;
          ;
        }
        ;
        x14++;
      ^}
      printf("%ld %ld %ld\n", 6, ((6)) ^ (x14 | 608), (x14 && 1));
    }
  }
  {
    int i18;
    forall (i18 = 0; i18 < 2; i18++)
      x14++;
  }
  {
    int i19;
    for (i19 = 4; i19 > 0; )
    {
      i19--;
      {
        {
          int x20 = (x14 || i19) >> 4;
          local struct box *l21 = (struct box *) malloc(1 * sizeof(struct box));
          printf("%ld %ld!", x20, (x20 >= i19) || l21);
        }
        {
          int i22;
          for (i22 = 0; i22 < 4; i22++)
          {
            printf("%ld %ld %ld\t", ((i22)) + i22, (i22), (i22 | i22) == 6);
          }
        }
      }
    }
  }
  ;
  x14++;
  return (NULL == NULL);
}