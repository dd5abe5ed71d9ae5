#include <stdio.h>
int f1()
{
  int x1;
  {
    int i2;
    for (i2 = 1; i2 > 0; )
    {
      i2--;
      {
        {
          int i3;
          for (i3 = 0; i3 < 2; i3++)
          {
            int *p4 = (int *) malloc(2 * sizeof(int));
            ;
            printf("%ld\t", (p4[0]) < (*p4));
          }
        }
        x1++;
      }
    }
  }
  x1 = ((x1));
  if (((x1)))
  {
    {
      local int *l5 = (int *) malloc(2 * sizeof(int));
      printf("!");
      ;
    }
  }
  printf("%d %d\n", ((x1)), 9);
  x1++;
  return 0;
}
void f2(int *a6, int a7, int *a8)
{
  {^
    a8[0] = (a6 != NULL) & (a7 + a7);
    {
      int x9;
      int *p10 = malloc(3 * sizeof(int));
      ;
    }
    ;
  ^}
}
int f3(int *a11, int *a12, local int *a13)
{
  int x14 = (a13 || 6) || (6 % 3);
  int x15 = (3 * x14) || ((x14));
  f2((int *) malloc(sizeof(int)), a11[1], a13)@NODE((2));
  f2(a12, a11 != a11, a13);
  {^
    {
      a12 = a13;
      {
        int i16;
        for (i16 = 1; i16 > 0; )
        {
          i16--;
          {
            x15 = 5;
            f2(malloc(sizeof(int)), x14, (int *) malloc(3 * sizeof(int)));
          }
        }
      }
    }
    f2(a12, a13 == NULL, a13);
    {
      int x17;
      int x18;
      {^
        x17 = ~(~x17);
        f2((int *) malloc(sizeof(int)), a13[1], a12)@ANYWHERE;
      ^}
    }
  ^}
  return a13 == NULL;
}
int f4(local int *a19, int **a20)
{
  int *p21;
  int x22;
  p21 = a19;
  a19[0] = 955;
  return (5 * 6) % 2;
}
int main(int n23, int n24)
{
  {^
    f3((int *) malloc(5 * sizeof(int)), malloc(3 * sizeof(int)), malloc(4 * sizeof(int)));
    f4((int *) malloc(sizeof(int)), malloc(5 * sizeof(int *)));
    n24 = ~(f3(NULL, NULL, malloc(sizeof(int))));
  ^}
  n23++;
  return (n24 * n24) / (0 | n23);
}
