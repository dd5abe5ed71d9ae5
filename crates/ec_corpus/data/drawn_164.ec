struct s { int v; int f1; int f0[1]; int f3; int f2; };
void f1(int a1, int a2)
{
  {
    int i3;
    forall (i3 = (a2 >> 1) & 3; i3 < 2; i3 = i3 + 1)
    {
      int *p4 = malloc(3 * sizeof(int));
      if (a2)
      {
        int x5 = a1;
        ;
        ;
        ;
      }
      else
      {
        a2++;
      }
    }
  }
  if (8)
  {
    {
      int i6;
      forall (i6 = 0; i6 < 0; i6++)
      {
        struct s *p7 = malloc(3 * sizeof(struct s));
        ;
        a1 = (9223372036854775807 + 914) ^ (9 * a2);
      }
    }
    {^
      a1++;
      {
        ;
        ;
      }
    ^}
    {
      int i8;
      for (i8 = 0; i8 < 2; i8++)
      {
        ;
      }
    }
  }
  ;
}
int f2()
{
  {^
    {
      int x9;
      int x10 = x9;
      {^
        f1(1, 4 * 3);
        f1((x9), 2 * x10)@NODE((x9));
        {
          struct s *p11 = (struct s *) malloc(3 * sizeof(struct s));
          local struct s *l12 = malloc(3 * sizeof(struct s));
          l12->f3 = (0 * x10) - (!806);
        }
      ^}
    }
    {
      struct s *p13 = malloc(1 * sizeof(struct s));
      p13[0] = p13[0];
    }
  ^}
  return -3;
}
int f3(int a14, local int *a15)
{
  struct s *p16 = malloc(3 * sizeof(struct s));
  int *p17 = malloc(4 * sizeof(int));
  {
    int i18;
    for (i18 = 3; i18 > 0; )
    {
      i18--;
      {
        int x19 = i18 >= (*p17);
        int x20 = ~(x19 | a14);
        f1(x19 << 4, ~x19);
        f1(f2(), p17 != a15);
      }
    }
  }
  {^
    f2()@OWNER_OF(a15);
    f2();
  ^}
  return a14 ^ (a15[1]);
}
void f4(int a21)
{
  int *p22 = malloc(4 * sizeof(int));
  {
    int i23;
    forall (i23 = 0; i23 < 3; i23++)
      f2()@ANYWHERE;
  }
  f1(a21 - a21, (a21));
}
int main(int n24, int n25)
{
  struct s *p26 = malloc(3 * sizeof(struct s));
  p26[2] = p26[2];
  ;
  p26[0] = *p26;
  return (f3(n24, malloc(sizeof(int)))) >= (f3(611, malloc(1 * sizeof(int))));
}