struct s { int v; int *f1; int f2; int f0[2]; };
int f1(int a1, struct s *a2)
{
  int x3 = (4 << 7);
  shared int h4;
  x3++;
  {^
    {
      a2[0].f2 = (a2 != NULL) << (a2 == a2);
    }
    {
      int x5;
      a2->f0[0] = (9 | x3) - (a1 > x3);
      if ((-(x5 - a1)))
      {
        ;
      }
    }
  ^}
  if (((x3 ^ 3) + (a2 && 9223372036854775807)))
  {
    int x6 = 7 >= 2;
    (*a2).v = (a1 != 4) > (8 != 4);
    {
      int i7;
      forall (i7 = 0; i7 < 4; i7++)
      {
        addto(&h4, i7);
        a2 = a2;
      }
    }
  }
  else
  {
    shared int h8;
    ;
    a1 = (a1 | x3) & (!3);
  }
  return a2 == a2;
}
int f2(shared int *a9, int *a10, int *a11)
{
  int x12;
  f1(x12 && x12, malloc(sizeof(struct s)));
  f1((x12), malloc(2 * sizeof(struct s)));
  f1(x12 > x12, malloc(3 * 2 * sizeof(struct s)));
  a11 = a10;
  f1(valueof(a9), malloc(sizeof(struct s)));
  return valueof(a9);
}
int f3(int a13, int a14, shared int *a15)
{
  {
    int x16 = (a13 & a13) / (a14 & 9);
    shared int h17;
    {
      int i18;
      for (i18 = 0; i18 < 2; i18++)
      {
        int x19 = x16;
        ;
        printf("%ld %ld\t", 8, f1(valueof(a15), malloc(4 * sizeof(struct s)))@ANYWHERE);
        f1(a14, (struct s *) malloc(3 * sizeof(struct s)));
      }
    }
    if (((a13 < x16)))
    {
      x16 = (NULL != NULL) ^ 2;
      printf("%d %d;", NULL == NULL, (x16 || a13) != (valueof(&h17)));
      printf("%d\t", (struct s *) malloc(sizeof(struct s)) && malloc(5 * sizeof(struct s)));
    }
    else
    {
      printf("%d %ld %d\n", (valueof(a15)) || a14, valueof(a15), a13);
      x16++;
    }
  }
  if ((a13 != a14)) return valueof(a15);
  a14++;
  return (a14 / 5) <= (valueof(a15));
}
void f4()
{
  {
    ;
  }
  {
    int i20;
    for (i20 = 0; i20 < 4; i20++)
    {
      shared int h21;
      addto(&h21, 591);
      {
        int i22;
        for (i22 = 0; i22 < 3; i22++)
        {
          int x23 = (i20 + i20) <= i20;
          shared int h24;
          writeto(&h21, (valueof(&h24)) > 15);
        }
      }
    }
  }
  if ((-1))
  {
    f1(93, malloc(3 * 3 * sizeof(struct s)))@NODE((7));
  }
  else
  {
    local struct s *l25 = (struct s *) malloc(3 * sizeof(struct s));
    l25[0] = *l25;
  }
  {
    int i26;
    forall (i26 = 0; i26 < 2; i26++)
      ;
  }
  {^
    ;
  ^}
}
int main()
{
  int x27 = ~(f1(8, NULL)@ANYWHERE);
  x27++;
  x27++;
  if ((3 ^ x27)) return x27;
  x27++;
  return (1 - 1) + 5;
}
