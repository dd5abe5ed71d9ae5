#include <stdio.h>
struct s { int v; int f2[2]; int f1; int *f0; };
int f1()
{
  shared int h1;
  if ((7 != 1)) return (7 < 6) | (8 > 4);
  return ((1)) - (4 && 5);
}
int *f2()
{
  int x2 = (417 != 854) + (8 >> 2);
  int x3;
  ;
  {
    struct s *p4 = malloc(3 * sizeof(struct s));
    {^
      f1();
      {
        int x5 = (p4->v) && ((9));
        struct s *p6;
        f1()@HOME;
      }
      {
        struct s *p7 = (struct s *) malloc(3 * sizeof(struct s));
        f1();
        f1();
      }
    ^}
  }
  {^
    {
      if ((1 != (x2 < 5)))
      {
        int *p8 = (int *) malloc(3 * sizeof(int));
        f1()@HOME;
        f1();
      }
    }
    {
      int x9 = (-3) * (x2 / 4);
      x9++;
    }
  ^}
  {
    int i10;
    for (i10 = 0; i10 < 4; i10++)
    {
      shared int h11;
      x3++;
      if ((f1()))
      {
        struct s *p12 = (struct s *) malloc(1 * sizeof(struct s));
        int x13 = (p12 == p12) > (x3 != 8);
        x3++;
      }
    }
  }
  {
    int i14;
    forall (i14 = 0; i14 < 3; i14++)
    {
      f1();
      if (9)
      {
        int x15 = i14 + (f1());
        f1()@OWNER_OF(NULL);
      }
      else
      {
        f1()@HOME;
        f1();
      }
    }
  }
  return malloc(3 * 2 * sizeof(int));
}
struct s *f3(int a16)
{
  int *p17 = malloc(2 * sizeof(int));
  f1()@OWNER_OF(p17);
  return malloc(sizeof(struct s));
}
int main(int n18)
{
  {
    int i19;
    forall (i19 = 0; i19 < 1; i19++)
    {
      struct s *p20;
      n18++;
    }
  }
  {
    int i21;
    forall (i21 = 0; i21 < 0; i21++)
      f1()@ANYWHERE;
  }
  {^
    {
      {
        int i22;
        for (i22 = 0; i22 < 3; i22++)
        {
          n18++;
        }
      }
      f2()@NODE((n18));
    }
    n18 = f1();
  ^}
  if (((6 << 1) == n18))
  {
    {
      int i23;
      for (i23 = 1; i23 > 0; )
      {
        i23--;
        {
          int x24;
          x24++;
        }
      }
    }
  }
  {
    local struct s *l25 = (struct s *) malloc(2 * sizeof(struct s));
    struct s *p26 = malloc(3 * sizeof(struct s));
    printf("%ld %ld %ld\n", (-n18) | (l25 == NULL), f3(8)@OWNER_OF(l25) == l25, n18);
  }
  return (n18 - 9) != (n18 ^ n18);
}
