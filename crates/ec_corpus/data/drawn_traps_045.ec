struct s { int v; int f2[1]; int f1[3]; int f0[3]; };
int f1(int a1, struct s *a2)
{
  int x3;
  shared int h4;
  ;
  {
    struct s *p5 = malloc(3 * sizeof(struct s));
    if ((~x3))
    {
      writeto(&h4, ((496)) & x3);
    }
    else
    {
      struct s *p6;
      local struct s *l7 = (struct s *) malloc(4 * sizeof(struct s));
      ;
      writeto(&h4, ((10)));
    }
  }
  if ((((2))))
  {
    int x8 = 5;
    (*a2).v = (a1 - x8) && (8 + x3);
  }
  else
  {
    ;
  }
  a1++;
  return (a2 != a2) / 3;
}
int f2()
{
  shared int h9;
  if (((valueof(&h9)) + (NULL == NULL)))
  {
    {^
      addto(&h9, (struct s *) malloc((5 < 2) * sizeof(struct s)) == NULL);
      addto(&h9, 0 && 0);
      writeto(&h9, 4 * 9);
    ^}
    {
      int i10;
      forall (i10 = 0; i10 < 4; i10++)
        addto(&h9, 9 | 2);
    }
    {^
      addto(&h9, (!5) ^ (f1(3, NULL)));
      f1(6, malloc(3 * 1 * sizeof(struct s)));
      addto(&h9, (f1(6, NULL)) && (int *) malloc(2 * sizeof(int)));
    ^}
  }
  ;
  ;
  addto(&h9, !(622 < 2));
  return f1(6 ^ 818, malloc(4 * sizeof(struct s)))@HOME;
}
int f3(int a11)
{
  shared int h12;
  local struct s *l13 = (struct s *) malloc(1 * sizeof(struct s));
  (*l13).f1[3] = 9;
  return f2();
}
int main(int n14, int n15)
{
  int **p16 = malloc(3 * sizeof(int *));
  printf("%d\t", f3(2 && n14));
  return 1;
}