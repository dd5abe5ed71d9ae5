#include <stdio.h>
#include <stdlib.h>
struct s { int v; int f1; int f0; };
void f1(int a1, int a2)
{
  a1 = (7 && 1);
  {
    int i3;
    for (i3 = 0; i3 < 2; i3++)
    {
      ;
    }
  }
  a1++;
  {
    int i4;
    for (i4 = 0; i4 < 3; i4++)
    {
      local struct s *l5 = (struct s *) malloc(2 * sizeof(struct s));
      ;
    }
  }
}
int f2(local struct s *a6, shared int *a7, int a8)
{
  {
    int i9;
    for (i9 = 0; i9 < 1; i9++)
    {
      struct s *p10 = (struct s *) malloc(2 * sizeof(struct s));
      int x11;
      addto(a7, i9 * a8);
      {^
        {
          writeto(a7, i9);
          writeto(a7, (x11 == i9) + (p10 != NULL));
        }
        addto(a7, 448 || (8 == i9));
      ^}
    }
  }
  a8++;
  {^
    {
      int x12 = valueof(a7);
      {^
        a6[0] = *a6;
        addto(a7, a6->f1);
        {
          addto(a7, a8);
        }
      ^}
      {
        int x13;
        writeto(a7, (!6) < (x13 * x12));
      }
    }
  ^}
  return a6 != NULL;
}
void f3(int a14)
{
  shared int h15;
  a14 = 5;
  a14 = (a14 ^ 6) % 5;
  if (((a14 || NULL)))
  {
    int **p16 = (int **) malloc(4 * sizeof(int *));
    if ((a14 || (a14 * 5)))
    {
      ;
    }
    else
    {
      writeto(&h15, (valueof(&h15)) / 7);
      a14++;
    }
  }
  else
  {
    struct s *p17 = (struct s *) malloc(4 * sizeof(struct s));
    struct s *p18 = (struct s *) malloc(2 * sizeof(struct s));
    {
      int i19;
      while (i19 < 4)
      {
        i19 = i19 + 1;
        {
          int x20 = (a14);
          addto(&h15, x20);
        }
      }
    }
    a14 = !a14;
  }
  if (((a14 * a14) ^ (a14 % 6)))
  {
    {^
      {
        addto(&h15, a14);
      }
      writeto(&h15, (valueof(&h15)) | (-5));
      a14++;
    ^}
    writeto(&h15, 681);
    if (((a14 || a14) && (6 + 7)))
    {
      int x21;
      a14 = (valueof(&h15)) * (7 || x21);
    }
  }
  f2((struct s *) malloc(sizeof(struct s)), &h15, !a14);
}
void f4(int **a22, int a23)
{
  int x24;
  int x25 = (a23 && a22) + (x24 && x24);
  x24 = ((x25)) || ((4));
}
int main(int n26)
{
  shared int h27;
  int x28 = n26 != n26;
  {
    int i29;
    for (i29 = 0; i29 < 3; i29++)
    {
      printf("\n");
      f2((struct s *) malloc(sizeof(struct s)), &h27, x28 && i29);
    }
  }
  addto(&h27, valueof(&h27));
  return n26;
}