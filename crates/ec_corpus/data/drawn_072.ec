struct s { int v; };
void f1(struct s *a1)
{
  shared int h2;
  int x3 = 1;
  ;
  {
    int i4;
    for (i4 = 0; i4 < 2; i4++)
    {
      int x5 = a1->v;
      if (((8 || x5) & (3 && x3)))
      {
        writeto(&h2, 162);
        writeto(&h2, 7 ^ (x5 << 4));
        addto(&h2, ((i4)));
      }
      else
      {
        addto(&h2, x5 % 2);
        ;
      }
      x3++;
      addto(&h2, -(x3 || x5));
    }
  }
}
int f2(struct s *a6, int a7, int a8)
{
  f1(a6);
  f1((struct s *) malloc(sizeof(struct s)))@NODE(1 >= a7);
  {
    int i9;
    forall (i9 = 0; i9 < 3; i9++)
      f1(a6)@OWNER_OF(a6);
  }
  return a8;
}
int *f3(int *a10, shared int *a11, shared int *a12)
{
  local struct s *l13 = malloc(1 * sizeof(struct s));
  {
    int i14;
    forall (i14 = 0; i14 < 2; i14++)
      addto(a11, i14);
  }
  return a10;
}
int main()
{
  int x15 = f2(malloc(3 * sizeof(struct s)), f2(NULL, 1, 3), 7 / 4);
  int **p16 = malloc(4 * sizeof(int *));
  {
    struct s *p17 = malloc(1 * sizeof(struct s));
    {
      int i18;
      forall (i18 = 0; i18 < 1; i18++)
        x15 = 456;
    }
    if ((2 + x15)) return malloc(2 * 1 * sizeof(struct s)) == p17;
    f2(p17, p17[0].v, x15 == x15);
  }
  x15 = 7 - (1 - x15);
  f2(malloc(1 * 2 * sizeof(struct s)), x15 << 5, ~7)@OWNER_OF(p16);
  f1((struct s *) malloc(3 * 1 * sizeof(struct s)))@NODE(!x15);
  x15++;
  return !(654 >= 3);
}
