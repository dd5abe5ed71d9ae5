#include <stdio.h>
#include <stdlib.h>
struct s { int f0; int f1; int v; };
struct tree { struct box *f1; struct tree *f0; int v; };
struct box { int v; int f1; int f0; };
int f1(shared int *a1)
{
  shared int h2;
  {
    int i3;
    while (i3 < 1)
    {
      i3 = i3 + 1;
      {
        addto(a1, valueof(&h2));
        if ((int *) malloc(2 * sizeof(int)))
        {
          int x4 = i3;
          int x5;
          ;
          printf("%ld %ld%%", (valueof(a1)) >> 7, !(NULL || NULL));
          writeto(a1, (i3 << 8));
        }
      }
    }
  }
  return valueof(a1);
}
struct tree *f2()
{
  ;
  {
    int i6;
    for (i6 = 3; i6 > 0; )
    {
      i6--;
      {
        shared int h7;
        {
          int i8;
          for (i8 = 4; i8 > 0; )
          {
            i8--;
            {
              int x9 = ((i8)) / 2;
              ;
            }
          }
        }
      }
    }
  }
  return (struct tree *) malloc(3 * 3 * sizeof(struct tree));
}
int main(int n10, int n11)
{
  local struct box *l12 = (struct box *) malloc(3 * sizeof(struct box));
  shared int h13;
  {
    int i14;
    for (i14 = 0; i14 < 4; i14++)
    {
      int x15 = (830 > n11) * n10;
      int x16 = x15 < x15;
      n10++;
    }
  }
  n11 = f1(&h13);
  {
    int x17 = (valueof(&h13)) % 7;
    shared int h18;
    {
      int i19;
      for (i19 = 0; i19 < 2; i19++)
      {
        struct tree *p20 = (struct tree *) malloc(4 * sizeof(struct tree));
        printf("%ld%%", (n11 - i19) | (n10 != 8));
        p20->f0 = p20;
        printf("%ld\t", (valueof(&h18)) * x17);
      }
    }
  }
  return (-5) - ((n10));
}
