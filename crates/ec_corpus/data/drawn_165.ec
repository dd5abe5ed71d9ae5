struct s { int v; int f0; int f1[4]; };
int f1(shared int *a1, int a2, int a3)
{
  int x4 = ((a2)) >= (~a2);
  a3 = valueof(a1);
  ;
  ;
  return (~9) ^ (a2 > a2);
}
void f2()
{
  struct s *p5 = malloc(2 * sizeof(struct s));
  struct s *p6 = malloc(4 * sizeof(struct s));
  {
    int i7;
    forall (i7 = 0; i7 < 4; i7++)
      ;
  }
  ;
  p6[3] = *p5;
  if (((3 & 4) << 5))
  {
    int x8 = (3 + 0) - (0 && 1);
    {
      int i9;
      forall (i9 = 0; i9 < 1; i9++)
      {
        int *p10 = malloc(1 * sizeof(int));
        int x11 = (x8 * x8) * (2 * 8);
        p6->v = p6->v;
        ;
      }
    }
    {
      struct s *p12 = malloc(4 * sizeof(struct s));
      ;
      p6[3] = *p12;
      ;
    }
    ;
  }
}
int main(int n13)
{
  int x14;
  x14 = 2 >= (x14 * x14);
  {
    int i15;
    forall (i15 = 0; i15 < 4; i15++)
    {
      if (malloc(3 * sizeof(int)))
      {
        int x16;
        f2()@ANYWHERE;
      }
      else
      {
        int x17 = (NULL != NULL) != (x14 | n13);
        f2();
      }
      x14--;
    }
  }
  if ((NULL != NULL)) return n13 << 3;
  return 8;
}