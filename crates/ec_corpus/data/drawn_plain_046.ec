#include <stdio.h>
#include <stdlib.h>
struct s { int f2; int f1[2]; struct s *f3; int v; struct s *f0; };
struct tree { struct tree *f0; int v; };
struct s *f1()
{
  {^
    {
      local int *l1 = (int *) malloc(4 * sizeof(int));
      int *p2 = (int *) malloc(1 * sizeof(int));
      {
        int i3;
        for (i3 = 0; i3 < 2; i3++)
        {
          struct s *p4 = (struct s *) malloc(2 * sizeof(struct s));
          ;
          ;
          ;
        }
      }
      if ((((5)) && ((9))))
      {
        ;
        ;
      }
      else
      {
        int x5 = ((9));
        ;
      }
    }
    ;
    {
      shared int h6;
      struct tree *p7 = (struct tree *) malloc(1 * sizeof(struct tree));
      if (((6 + 1) / 3))
      {
        addto(&h6, 342 >= (338 - 3));
        ;
      }
    }
  ^}
  {^
    {
      int x8 = (9);
      {
        int i9;
        forall (i9 = 0; i9 < 2; i9++)
        {
          int x10;
          int x11;
          ;
        }
      }
    }
  ^}
  ;
  {^
    ;
    {
      struct s *p12 = (struct s *) malloc(2 * sizeof(struct s));
      {^
        ;
        p12->f0 = p12;
        ;
      ^}
      ;
    }
  ^}
  return (struct s *) malloc(3 * sizeof(struct s));
}
int f2()
{
  shared int h13;
  ;
  {
    int i14;
    for (i14 = 0; i14 < 3; i14++)
    {
      {
        int i15;
        for (i15 = 0; i15 < 1; i15++)
        {
          addto(&h13, valueof(&h13));
        }
      }
      {
        int i16;
        forall (i16 = 0; i16 < 2; i16++)
        {
          int x17 = (valueof(&h13));
          addto(&h13, 6);
        }
      }
      {
        int i18;
        forall (i18 = 0; i18 < 1; i18++)
          writeto(&h13, i14);
      }
    }
  }
  return 4;
}
int f3()
{
  {^
    f1();
    f2();
    f1();
  ^}
  return (6 ^ 8) ^ 9;
}
void f4(int a19)
{
  int x20;
  struct s *p21 = (struct s *) malloc(1 * sizeof(struct s));
  {
    int i22;
    for (i22 = 0; i22 < 3; i22++)
    {
      int *p23 = (int *) malloc(4 * sizeof(int));
      {^
        f3();
        f1();
        f3();
      ^}
      {
        int i24;
        for (i24 = 0; i24 < 4; i24++)
        {
          int x25;
          a19 = f3();
        }
      }
      f2();
    }
  }
  f1();
  f1();
  a19 = f3();
  if (p21)
  {
    local int *l26 = (int *) malloc(4 * sizeof(int));
    p21->f1[0] = 5;
  }
  else
  {
    {^
      f3();
    ^}
  }
}
int main(int n27, int n28)
{
  shared int h29;
  n27++;
  n28++;
  writeto(&h29, 907);
  return n28 && (8 - 3);
}
