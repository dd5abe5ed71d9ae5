struct s { int f0[1]; int v; int *f1; };
struct tree { int v; };
struct s *f1()
{
  ;
  if ((~(!7)))
  {
    int x1 = (9 + 9223372036854775807);
    struct s *p2 = malloc(4 * sizeof(struct s));
    {
      int i3;
      forall (i3 = 0; i3 < 4; i3++)
      {
        ;
      }
    }
    ;
  }
  return malloc(sizeof(struct s));
}
struct tree *f2(int a4, int *a5, int a6)
{
  shared int h7;
  local int *l8 = malloc(1 * sizeof(int));
  a6 = a4;
  return malloc(sizeof(struct tree));
}
int f3(int a9, shared int *a10)
{
  struct tree *p11 = (struct tree *) malloc(3 * sizeof(struct tree));
  p11[2] = p11[2];
  {^
    writeto(a10, a9);
    f1();
  ^}
  a9++;
  a9++;
  a9 = (a9 | a9);
  return valueof(a10);
}
void f4(int *a12, int a13)
{
  int *p14 = malloc(3 * sizeof(int));
  ;
  f2(a13, (int *) malloc(sizeof(int)), a13 * a13);
  if (a13) return;
  f1();
}
int main(int n15, int n16)
{
  int *p17 = malloc(4 * sizeof(int));
  ;
  {
    int i18;
    for (i18 = 0; i18 < 1; i18++)
    {
      shared int h19;
      int x20 = valueof(&h19);
      if ((f3(n15 >= i18, &h19)@OWNER_OF(p17)))
      {
        printf("%d %d\n", f3(n16 & i18, &h19), (i18 > 326) == (i18 || 1));
        if (((n16))) return i18;
      }
      *p17 = n16 > n15;
    }
  }
  {^
    f2(5, p17, 2)@ANYWHERE;
    {
      int x21 = (-n15) + (n16 || n16);
      struct tree *p22 = malloc(3 * sizeof(struct tree));
      {^
        p22[1] = p22[0];
        {
          int *p23 = malloc(3 * sizeof(int));
          f2(n15 * n15, p17, p22[2].v)@OWNER_OF(p22);
          f4((int *) malloc(2 * 3 * sizeof(int)), 4)@HOME;
        }
        f2(p22 == NULL, (int *) malloc(2 * sizeof(int)), n15);
      ^}
      f4(p17, 8 != 4);
    }
  ^}
  {
    int i24;
    forall (i24 = (~5) & 3; i24 < 1; i24 = i24 + 1)
      n15 = malloc(5 * sizeof(int)) != p17;
  }
  {
    int i25;
    for (i25 = 0; i25 < 1; i25++)
    {
      struct s *p26 = malloc(3 * sizeof(struct s));
      local int *l27 = malloc(4 * sizeof(int));
      {
        int *p28 = malloc(4 * sizeof(int));
        printf(";");
        f4(malloc(sizeof(int)), n15 >= n15);
      }
      if ((NULL != NULL)) return l27 != p17;
      if ((p26->v))
      {
        int x29 = 4 <= 3;
        n16++;
        printf("%ld %d %d%%", (9 * 7) || (!x29), (n15 / 1) - (p26->v), (0 | n16) - n16);
        n16 = p17 == l27;
      }
    }
  }
  return (n16 & n16) + 4611686018427387904;
}
