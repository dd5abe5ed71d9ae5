#include <stdio.h>
struct s { int f2; struct s *f1; int f0; int v; struct s *f3; };
int f1(int a1, int a2, int a3)
{
  int r4;
  shared int h5;
  if (a1 > 0) {^ r4 = f1((a1 & 3) - 1, a2, a3); ; ^}
  addto(&h5, (a1 << 5) && ((r4)));
  ;
  {^
    {
      int x6;
      addto(&h5, (valueof(&h5)) == (a2 << 1));
    }
    a3++;
  ^}
  {
    int i7;
    for (i7 = 0; i7 < 3; i7++)
    {
      int x8;
      a3++;
    }
  }
  return a2 - ((a2));
}
int f2(local int *a9, shared int *a10)
{
  int x11 = ~(5 % 9);
  x11++;
  if ((6 >= ((x11))))
  {
    writeto(a10, x11 + (x11 || x11));
    {
      int i12;
      while (i12 < 2)
      {
        i12 = i12 + 1;
        {
          struct s *p13 = malloc(3 * sizeof(struct s));
          struct s *p14 = malloc(2 * sizeof(struct s));
          addto(a10, (x11 || x11) & (4 / 3));
          addto(a10, x11);
        }
      }
    }
  }
  else
  {
    {
      int i15;
      for (i15 = 0; i15 < 3; i15++)
      {
        int x16 = x11;
        x16 = (0 && x16) > (i15 && x16);
      }
    }
  }
  return f1(1, f1(5, 0, 5), 8 + 1);
}
int main()
{
  {
    int i17;
    for (i17 = 0; i17 < 4; i17++)
    {
      local struct s *l18 = (struct s *) malloc(3 * sizeof(struct s));
      int x19 = i17;
      {
        int i20;
        for (i20 = 0; i20 < 3; i20++)
        {
          shared int h21;
          printf("%ld\t", (x19 | 2) & (-x19));
        }
      }
      printf("\n");
      {^
        {
          struct s *p22;
          x19 = (x19 && x19) - (l18->v);
        }
      ^}
    }
  }
  if ((int *) malloc(5 * sizeof(int)))
  {
    int x23;
    ;
    {
      int i24;
      for (i24 = 0; i24 < 4; i24++)
      {
        printf("%ld\t", 0);
        f1(i24 <= i24, i24 <= i24, i24 - i24);
      }
    }
  }
  else
  {
    int x25;
    x25++;
    {^
      ;
    ^}
  }
  ;
  {
    int i26;
    for (i26 = 0; i26 < 2; i26++)
    {
      local struct s *l27 = malloc(1 * sizeof(struct s));
      ;
      printf("%d %ld%%", l27->v, i26);
    }
  }
  ;
  return (7 == 4) - (f1(282, 6, 3));
}