#include <stdio.h>
struct s { int v; };
struct tree { int f0; int v; };
struct box { int v; };
void f1(int a1)
{
  int x2;
  int x3 = ((9));
  ;
  ;
  {
    int i4;
    for (i4 = 4; i4 > 0; )
    {
      i4--;
      {
        ;
      }
    }
  }
}
int f2(struct tree *a5, int a6, struct box *a7)
{
  int x8 = 3 - (-4);
  struct box *p9 = (struct box *) malloc(1 * sizeof(struct box));
  f1((x8));
  return ((a6)) <= 0;
}
int main()
{
  {
    struct box *p10 = (struct box *) malloc(2 * sizeof(struct box));
    int x11 = ((7));
    f1((8));
    if ((p10 != NULL))
    {
      printf("%ld!", x11);
    }
    {
      int i12;
      for (i12 = 0; i12 < 1; i12++)
      {
        int x13 = ((i12)) <= (p10 == NULL);
        printf("%ld %ld;", i12, i12);
        ;
      }
    }
  }
  printf("\t");
  {
    int i14;
    for (i14 = 0; i14 < 4; i14++)
    {
      int x15;
      x15++;
      {
        int i16;
        for (i16 = 0; i16 < 4; i16++)
        {
          int *p17 = (int *) malloc(1 * sizeof(int));
          printf("\n");
          printf("%ld %ld %ld\n", i14, i14, i16);
        }
      }
      f1((i14));
    }
  }
  ;
  f1(1 / 9);
  return 7;
}
