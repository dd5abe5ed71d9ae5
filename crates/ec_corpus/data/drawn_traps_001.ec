struct s { int f0; int v; int *f2; int f1; };
int **f1(int a1, struct s *a2)
{
  shared int h3;
  {
    int i4;
    for (i4 = 3; i4 > 0; )
    {
      i4--;
      {
        struct s *p5 = malloc(2 * sizeof(struct s));
        addto(&h3, (a1 && a1) ^ i4);
        ;
      }
    }
  }
  if ((a1 && (valueof(&h3))))
  {
    {
      int x6;
      addto(&h3, x6);
    }
    a2[0] = *a2;
  }
  else
  {
    local int *l7 = malloc(4 * sizeof(int));
    {^
      writeto(&h3, valueof(&h3));
      {
        struct s *p8 = malloc(4 * sizeof(struct s));
        struct s *p9;
        addto(&h3, (a1 || a1) == 9);
      }
      writeto(&h3, (a1 && a1) != (a1 > 9));
    ^}
  }
  return malloc(sizeof(int *));
}
int main(int n10, int n11)
{
  int r12;
  local int *l13 = malloc(4 * sizeof(int));
  if (n10 > 0) r12 = main((n10 & 3) - 1, n11);
  {^
    {
      f1((r12), NULL)@OWNER_OF(l13);
      f1((8), malloc(3 * sizeof(struct s)));
    }
  ^}
  {
    int i14;
    for (i14 = 4; i14 > 0; )
    {
      i14--;
      {
        shared int h15;
        printf("%d %ld %d\t", (int *) malloc(sizeof(int)) == NULL, (5 != i14) >= (3 - n10), (n11 * n10) - (r12 <= n11));
      }
    }
  }
  {
    int i16;
    for (i16 = 0; i16 < 1; i16++)
    {
      int x17 = (i16 | n10) <= ((n10));
      printf("!");
    }
  }
  {
    int i18;
    for (i18 = 0; i18 < 2; i18++)
    {
      int x19;
      f1(i18, malloc(sizeof(struct s)));
    }
  }
  printf("%d %ld %ld\n", r12, (r12 && l13) * r12, 3);
  return (n11 * n10);
}
