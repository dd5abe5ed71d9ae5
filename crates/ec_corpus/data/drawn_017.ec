struct s { int v; struct s *f1; int f0; };
struct s *f1(int a1, struct s *a2)
{
  a2[0] = a2[3];
  {^
    ;
  ^}
  {^
    ;
    ;
  ^}
  return a2;
}
int **f2()
{
  int x3;
  shared int h4;
  x3++;
  printf("\t");
  return (int **) malloc(1 * sizeof(int *));
}
int f3(shared int *a5, int a6)
{
  shared int h7;
  int x8 = (a6 ^ a6) <= (!a6);
  {^
    x8++;
    a6 = 4;
  ^}
  {^
    writeto(&h7, (valueof(&h7)));
    a6 = (x8 || x8);
  ^}
  printf("%ld\n", a6 & ((a6)));
  {
    int i9;
    forall (i9 = 0; i9 < 1; i9++)
      addto(a5, valueof(a5));
  }
  addto(&h7, (a6 || (int *) malloc(sizeof(int))));
  return 6;
}
struct s *f4()
{
  int x10;
  local struct s *l11 = malloc(1 * sizeof(struct s));
  x10 = (x10 % 6) << 7;
  {
    int i12;
    for (i12 = 0; i12 < 3; i12++)
    {
      f1(-x10, malloc(sizeof(struct s)));
      l11 = l11;
      f1(i12 ^ x10, l11)@ANYWHERE;
    }
  }
  return f1(933, NULL)@NODE(9 | 4294967296);
}
int main()
{
  shared int h13;
  int x14;
  if ((int *) malloc(3 * 3 * sizeof(int))) return malloc(3 * sizeof(int)) != malloc(sizeof(int));
  if ((x14 | 4)) return (6 << 1) >= (f3(&h13, 0));
  {
    int i15;
    forall (i15 = 0; i15 < 1; i15++)
    {
      int x16;
      int x17;
      writeto(&h13, ~x17);
      x17 = x14 + (x17 - x14);
    }
  }
  f3(&h13, x14 || x14);
  {
    int i18;
    forall (i18 = (i18 / 3) & 3; i18 < 3; i18 = i18 + 1)
      x14++;
  }
  return f4() && (NULL == NULL);
}
