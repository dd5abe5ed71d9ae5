int f1(int a1, int a2, int *a3)
{
  shared int h4;
  printf("%d %d%%", (a2 * a1), (a2 > a2) || ((a2)));
  a3 = a3;
  {
    int i5;
    for (i5 = 0; i5 < 3; i5++)
    {
      {
        local int *l6 = malloc(1 * sizeof(int));
        addto(&h4, -(a3 && 0));
        printf("%d\n", a1);
        a2++;
      }
    }
  }
  {
    int i7;
    for (i7 = 0; i7 < 3; i7++)
    {
      int x8 = (-a2) / 5;
      int x9;
      {
        int i10;
        forall (i10 = 3 & 3; i10 < 1; i10 = i10 + 1)
          a1 = ((0)) & (i7 % 7);
      }
      {^
        addto(&h4, valueof(&h4));
        {
          writeto(&h4, (a1 % 6) > (a3 != a3));
          addto(&h4, ((x8)) < (x8 || x8));
        }
      ^}
      a2 = a3[1];
    }
  }
  return (a1 && a2) & (a1 || 8);
}
int main()
{
  ;
  printf("%d\n", 1048576 << (1 && 371));
  {
    local int **l11 = (int **) malloc(3 * sizeof(int *));
    int x12;
    f1(f1(0, x12, NULL), f1(x12, 1, NULL), l11[2]);
    x12++;
    if (l11)
    {
      int *p13 = malloc(1 * sizeof(int));
      int x14 = f1(x12, p13[0], l11[2]);
      p13[0] = p13 != p13;
      printf("%d %ld %d\n", (9 + x14) || x14, p13 != NULL, x14);
    }
    else
    {
      printf("!");
      printf("%ld %ld;", -(!1), f1(4 * 0, x12, l11[0]));
    }
  }
  ;
  return 7 / 2;
}