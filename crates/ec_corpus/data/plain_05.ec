#include <stdio.h>
struct s { int v; int f0; };
struct tree { int v; };
struct box { int v; };
int f1(struct tree *a1)
{
  int x2;
  x2++;
  ;
  ;
  return 1;
}
int f2(int a3)
{
  int x4;
  a3++;
  return (7 >> 3);
}
void f3(int a5, int a6, int *a7)
{
  f1(NULL);
  printf("\n");
}
int *f4(int a8, struct box *a9)
{
  struct box *p10 = (struct box *) malloc(4 * sizeof(struct box));
  if (((a8 ^ 4) - (a8 % 3)))
  {
    int x11;
    x11++;
    f2((3));
    {
      f1(NULL);
      f1(NULL);
    }
  }
  else
  {
    int x12;
    a8 = (a9 != NULL) + (a8 % 4);
  }
  f2(a8 * a8);
  return (int *) malloc(3 * sizeof(int));
}
int main()
{
  int *p13 = (int *) malloc(4 * sizeof(int));
  ;
  {
    int i14;
    for (i14 = 0; i14 < 1; i14++)
    {
      int x15 = i14;
      printf("%ld %ld!", x15, x15);
      printf("%ld%%", i14);
      x15++;
    }
  }
  {
    int i16;
    while (i16 < 3)
    {
      i16 = i16 + 1;
      {
        struct box *p17 = (struct box *) malloc(4 * sizeof(struct box));
        struct tree *p18 = (struct tree *) malloc(3 * sizeof(struct tree));
        printf("%ld %ld %ld!", i16, i16, i16);
      }
    }
  }
  return 8;
}