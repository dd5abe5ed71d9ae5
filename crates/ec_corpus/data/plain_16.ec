#include <stdio.h>
struct s { int v; };
struct tree { int v; };
int f1(struct tree *a1, struct s *a2)
{
  struct tree *p3 = (struct tree *) malloc(1 * sizeof(struct tree));
  int *p4 = (int *) malloc(3 * sizeof(int));
  ;
  ;
  ;
  return (7 - 2);
}
int f2(int a5)
{
  struct s *p6 = (struct s *) malloc(4 * sizeof(struct s));
  f1(NULL, p6);
  f1(NULL, p6);
  {
    int i7;
    for (i7 = 3; i7 > 0; )
    {
      i7--;
      {
        a5 = a5;
        {
          int i8;
          for (i8 = 0; i8 < 3; i8++)
          {
            a5++;
          }
        }
      }
    }
  }
  {
    int i9;
    for (i9 = 3; i9 > 0; )
    {
      i9--;
      {
        f1(NULL, p6);
      }
    }
  }
  p6->v = (-a5) && p6;
  return (NULL == NULL);
}
int main()
{
  int x10 = (145 < 556) % 7;
  int *p11 = (int *) malloc(1 * sizeof(int));
  *p11 = (p11 != NULL) != x10;
  f2((x10));
  if ((((9))))
  {
    int *p12 = (int *) malloc(3 * sizeof(int));
    x10 = (~257);
    printf("\n");
    printf("%ld %ld!", x10, x10);
  }
  return (3 == 9) << 5;
}
