struct s { int f0; int v; };
int f1()
{
  struct s *p1 = (struct s *) malloc(2 * sizeof(struct s));
  int *p2 = malloc(2 * sizeof(int));
  ;
  {^
    p1[0] = p1[0];
    ;
  ^}
  return 356;
}
int f2(int *a3)
{
  int **p4 = malloc(3 * sizeof(int *));
  a3[0] = ~552;
  {
    int i5;
    for (i5 = 0; i5 < 4; i5++)
    {
      {
        local struct s *l6 = malloc(2 * sizeof(struct s));
        struct s *p7 = (struct s *) malloc(2 * sizeof(struct s));
        f1();
        f1();
        ;
      }
      {
        int i8;
        forall (i8 = (i5 >> 5) & 3; i8 < 0; i8 = i8 + 1)
        {
          struct s *p9 = malloc(2 * sizeof(struct s));
          int x10;
          x10 = ((i5)) << 3;
        }
      }
      ;
    }
  }
  p4 = p4;
  return ((9223372036854775807)) || (7 || 335);
}
int main(int n11, int n12)
{
  int x13 = n12;
  shared int h14;
  printf("%d %d\n", malloc(sizeof(int)) == malloc(4 * sizeof(int)), valueof(&h14));
  x13++;
  {
    int i15;
    forall (i15 = n12 & 3; i15 < 1; i15 = i15 + 1)
    {
      int x16 = (NULL == NULL) > (valueof(&h14));
      writeto(&h14, x13);
    }
  }
  return -(f2(NULL));
}