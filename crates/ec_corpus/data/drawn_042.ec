struct s { int v; struct s *f0; struct s *f3; struct s *f2; int f1[2]; };
int f1()
{
  local struct s *l1 = malloc(3 * sizeof(struct s));
  int x2;
  l1[2].v = x2;
  ;
  ;
  {^
    x2 = l1 == l1;
    ;
    ;
  ^}
  return (4 | 3) & (6 == 7);
}
int f2(int a3)
{
  f1();
  return 0;
}
void f3(shared int *a4, shared int *a5)
{
  int *p6 = malloc(3 * sizeof(int));
  local struct s *l7 = malloc(4 * sizeof(struct s));
  {
    int i8;
    for (i8 = 2; i8 > 0; )
    {
      i8--;
      {
        {^
          addto(a4, (l7->f1[1]) <= (i8 >> 6));
          {
            writeto(a4, !i8);
            f1();
          }
        ^}
        if (i8)
        {
          int x9 = p6[0];
          int x10 = (f2(4)@OWNER_OF(p6)) & (i8 << 3);
          x10 = f1();
          writeto(a4, 5 - (p6 != NULL));
          l7->f1[0] = i8;
        }
      }
    }
  }
  l7->v = (4 == 0) - (1 || 0);
}
void f4()
{
  {
    int i11;
    for (i11 = 4; i11 > 0; )
    {
      i11--;
      {
        ;
        {
          int i12;
          forall (i12 = 0; i12 < 2; i12++)
            f2(NULL != NULL);
        }
      }
    }
  }
}
int main(int n13, int n14)
{
  f1();
  return (n14 * n13) || (~1);
}
