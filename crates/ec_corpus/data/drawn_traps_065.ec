struct s { int *f2; int f0; struct tree *f1; int v; };
struct tree { int f2; int v; int f1; int *f3; struct tree *f0; };
int f1(int *a1)
{
  {
    int i2;
    forall (i2 = (6 | i2) & 3; i2 < 2; i2 = i2 + 1)
      ;
  }
  if (((7 > 9) >> 4))
  {
    int x3 = 9;
    struct tree *p4;
    {
      int i5;
      for (i5 = 0; i5 < 1; i5++)
      {
        ;
      }
    }
    x3 = x3 || ((x3));
  }
  else
  {
    int x6;
    ;
    x6++;
  }
  return (395 != 7) % 3;
}
int main(int n7, int n8)
{
  int r9;
  int x10 = r9;
  struct s *p11 = malloc(1 * sizeof(struct s));
  if (n7 > 0) r9 = main((n7 & 3) - 1, n8);
  f1((*p11).f2)@ANYWHERE;
  if (((x10 % n8) * (r9 < 8)))
  {
    {
      int i12;
      forall (i12 = 0; i12 < 0; i12++)
        f1(p11[0].f2)@OWNER_OF(p11);
    }
  }
  printf("%d;", (1 * x10) != (!x10));
  if ((f1((int *) malloc(1 * sizeof(int)))@ANYWHERE))
  {
    {^
      {
        f1(p11->f2)@HOME;
        f1(NULL)@NODE(8 ^ 9);
      }
    ^}
    p11[3] = *p11;
  }
  else
  {
    {^
      f1(p11->f2);
      f1((*p11).f2);
    ^}
    {
      printf("%d %d %ld!", (p11 != p11) + (4 || n8), (int **) malloc(3 * sizeof(int *)) && (n7 + r9), r9);
      f1(malloc(3 * sizeof(int)))@HOME;
      printf("%d %d %ld\t", (!4294967296) / n7, f1(p11->f2)@ANYWHERE, (~1048576) || (f1(NULL)));
    }
  }
  {
    int i13;
    forall (i13 = 0; i13 < 2; i13++)
      f1(p11->f2);
  }
  return -(4 <= n8);
}
