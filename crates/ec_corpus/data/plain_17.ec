#include <stdio.h>
struct s { int *f0; int v; };
struct tree { int v; };
struct box { int f1[1]; struct box *f0; int v; };
struct s *f1(struct tree *a1, int a2)
{
  ;
  ;
  return (struct s *) malloc(5 * sizeof(struct s));
}
void f2(int a3, struct tree *a4)
{
  a3++;
  f1(a4, a3);
}
int f3(int a5, int a6)
{
  if (((a5 << 9) + a5))
  {
    int x7 = (307 << 7) && (a6 >= a5);
    f1(NULL, a6 && a6);
    f1(NULL, NULL == NULL);
  }
  f1(NULL, (a5));
  f1(NULL, a6 | 8);
  return ((a6));
}
int main()
{
  ;
  ;
  {
    struct box *p8 = (struct box *) malloc(3 * sizeof(struct box));
    if ((7 + (!4)))
    {
      struct box *p9 = (struct box *) malloc(4 * sizeof(struct box));
      int x10 = (!8) * (8 * 7);
      f1(NULL, x10);
    }
    else
    {
      printf("-");
      f2((507), NULL);
    }
  }
  {
    int i11;
    while (i11 < 4)
    {
      i11 = i11 + 1;
      {
        struct box *p12 = (struct box *) malloc(1 * sizeof(struct box));
        {
          int i13;
          for (i13 = 0; i13 < 1; i13++)
          {
            printf("%ld%%", i11);
          }
        }
        printf("%%");
      }
    }
  }
  printf("\n");
  return (0);
}
