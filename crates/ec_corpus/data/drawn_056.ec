struct s { struct s *f0; int v; int f1; };
struct tree { int v; struct s *f0; };
int f1(shared int *a1, int a2)
{
  addto(a1, (a2 % 9));
  ;
  {^
    addto(a1, valueof(a1));
  ^}
  addto(a1, !(a2 + a2));
  return !(4 << 7);
}
int f2(shared int *a3, int a4, int a5)
{
  int r6;
  if (a4 > 0) r6 = f2(a3, (a4 & 3) - 1, a5);
  r6++;
  f1(a3, malloc(1 * sizeof(struct tree)) && r6);
  return valueof(a3);
}
int *f3(int a7, int a8, int a9)
{
  int x10 = a7 + 3;
  int x11;
  printf("\t");
  a9 = 7;
  return malloc(sizeof(int));
}
int main()
{
  struct s *p12 = (struct s *) malloc(4 * sizeof(struct s));
  p12->f0 = p12;
  p12->f1 = ((6)) % 4;
  ;
  ;
  if ((((6)) + (7 + 4611686018427387904)))
  {
    int x13 = 1;
    int x14 = (9 <= x13) ^ x13;
    if ((x14 || x14))
    {
      printf("%d %ld %d\n", (*p12).f1, 2, p12 && 4);
    }
    if ((2 ^ x13))
    {
      int x15 = x14;
      ;
      printf("%ld %ld %d!", (x13 / 5) + (!5), (4 / 1) && (3 - x15), p12 && 906);
      ;
    }
    x13++;
  }
  return 3;
}
