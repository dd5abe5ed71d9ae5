struct s { struct s *f0; int f2; int v; struct s *f1; int f3; };
struct s *f1(int *a1)
{
  int x2 = (a1 != a1) ^ (911 + 74);
  int x3;
  x2 = x2 == (x2 - 6);
  x2++;
  x3 = *a1;
  {
    int i4;
    forall (i4 = 0; i4 < 2; i4++)
    {
      struct s *p5 = malloc(1 * sizeof(struct s));
      {
        int i6;
        while (i6 < 2)
        {
          i6 = i6 + 1;
          {
            int x7 = i6;
            int x8;
            ;
            ;
          }
        }
      }
      ;
    }
  }
  return (struct s *) malloc(4 * sizeof(struct s));
}
int f2(int a9)
{
  struct s *p10 = (struct s *) malloc(1 * sizeof(struct s));
  int x11;
  x11++;
  a9 = -(x11 | x11);
  {^
    f1(malloc(sizeof(int)));
  ^}
  f1((int *) malloc(sizeof(int)));
  if (x11)
  {
    local int **l12 = (int **) malloc(3 * sizeof(int *));
    {
      int i13;
      for (i13 = 0; i13 < 3; i13++)
      {
        local int *l14 = malloc(1 * sizeof(int));
        int *p15 = (int *) malloc(2 * sizeof(int));
        printf("%d %ld %d%%", ((a9)), (p10->f3), ((7)));
        *p15 = a9 >> 9;
        printf("%ld %d!", (a9 << 1) && (i13 % 3), (8 == i13) % 2);
      }
    }
    printf("%d%%", (x11 * x11) <= (x11 == 5));
    {
      f1(l12[0]);
    }
  }
  else
  {
    int x16 = (*p10).f3;
    f1((int *) malloc(5 * sizeof(int)))@HOME;
    a9 = ~((a9));
  }
  return (1 >> 4) == 3;
}
int main(int n17, int n18)
{
  n17++;
  if ((n18 >= n18)) return 3 * ((n18));
  n18++;
  return (NULL == NULL);
}