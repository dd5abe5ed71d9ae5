#include <stdio.h>
#include <stdlib.h>
struct s { struct s *f0; int v; };
int f1(shared int *a1)
{
  int x2 = valueof(a1);
  local struct s *l3 = (struct s *) malloc(3 * sizeof(struct s));
  x2 = l3->f0 != NULL;
  return 3;
}
int f2()
{
  ;
  if ((int *) malloc(sizeof(int)))
  {
    ;
    {
      int i4;
      forall (i4 = 0; i4 < 2; i4++)
      {
        shared int h5;
        writeto(&h5, 9 && ((i4)));
      }
    }
  }
  {^
    {
      shared int h6;
      int x7 = (valueof(&h6)) && NULL;
      {^
        writeto(&h6, x7);
        addto(&h6, NULL != NULL);
      ^}
      {^
        x7 = (x7 || x7) & ((x7));
        {
          addto(&h6, (NULL == NULL) - (x7 % 6));
          x7++;
        }
        {
          ;
          f1(&h6);
        }
      ^}
    }
    ;
    {
      int x8;
      {^
        x8++;
        ;
      ^}
      x8++;
    }
  ^}
  ;
  return (5);
}
int f3(shared int *a9, local struct s *a10)
{
  {
    int i11;
    forall (i11 = 0; i11 < 2; i11++)
    {
      ;
      f1(a9);
    }
  }
  f1(a9);
  if ((((6))))
  {
    int x12 = 3;
    struct s *p13 = (struct s *) malloc(4 * sizeof(struct s));
    writeto(a9, x12 / 1);
    {
      int *p14 = (int *) malloc(4 * sizeof(int));
      (*p13).f0 = p13;
    }
  }
  {
    int i15;
    for (i15 = 0; i15 < 1; i15++)
    {
      {
        int i16;
        while (i16 < 1)
        {
          i16 = i16 + 1;
          {
            printf("!");
          }
        }
      }
    }
  }
  f2();
  return 7;
}
int f4(struct s *a17, local struct s *a18)
{
  f2();
  {
    int i19;
    for (i19 = 0; i19 < 4; i19++)
    {
      int x20 = 7;
      int x21 = (i19 || x20) / 5;
      {
        ;
        printf("%ld %ld\n", (a18->v) * (!i19), (x21));
        a18[0] = a18[0];
      }
    }
  }
  printf("%ld%%", (822 * 1));
  return 6;
}
int main()
{
  ;
  if (((5 << 8) - 1048576))
  {
    {
      int i22;
      forall (i22 = 0; i22 < 2; i22++)
      {
        f2();
        ;
      }
    }
    ;
  }
  return ((8)) < 611;
}
