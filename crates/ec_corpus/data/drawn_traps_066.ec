struct s { int v; struct s *f2; struct s *f0; int f1; };
int f1(int a1, local struct s *a2)
{
  shared int h3;
  int x4 = valueof(&h3);
  a2[0] = *a2;
  printf("%ld %d %d\t", (*a2).f1, valueof(&h3), (a2[1].f1));
  return 6 || 0;
}
int f2(int a5, shared int *a6, struct s *a7)
{
  local int *l8 = (int *) malloc(2 * sizeof(int));
  local struct s *l9 = (struct s *) malloc(3 * sizeof(struct s));
  addto(a6, !((a5)));
  if ((a7 == l9->f0))
  {
    int x10 = *l8;
    l8[1] = a5;
    if (7)
    {
      x10 = 391;
      writeto(a6, (9 && x10) + (x10 && x10));
    }
  }
  addto(a6, 4);
  writeto(a6, *l8);
  addto(a6, (a5 ^ a5) && (l9[2].f1));
  return ((a5)) * (a7->f1);
}
int f3()
{
  shared int h11;
  local struct s *l12 = malloc(3 * sizeof(struct s));
  writeto(&h11, ~(f2(5, &h11, l12)));
  if (7)
  {
    {
      int i13;
      for (i13 = 0; i13 < 2; i13++)
      {
        writeto(&h11, (valueof(&h11)) + (valueof(&h11)));
      }
    }
    if (9223372036854775807)
    {
      struct s *p14 = malloc(4 * sizeof(struct s));
      shared int h15;
      addto(&h15, (7 >= 6) & (904 * 1));
      addto(&h15, (valueof(&h11)) / 8);
      writeto(&h15, p14 == p14);
    }
    l12->f1 = 9 << 4;
  }
  else
  {
    int x16;
    if (((x16 < x16) <= (2 * x16)))
    {
      int x17 = x16;
      f2(x17 == x16, &h11, malloc((5) * sizeof(struct s)));
      f2(x16 >= 7, &h11, l12);
      f2(7 || x16, &h11, l12);
    }
    else
    {
      int x18 = x16;
      struct s *p19 = malloc(4 * sizeof(struct s));
      addto(&h11, x16);
      addto(&h11, valueof(&h11));
    }
  }
  l12[1] = *l12;
  return 1;
}
int main(int n20, int n21)
{
  int x22;
  if ((NULL != NULL)) return ((n21)) ^ ((n21));
  return n21;
}
