int f1()
{
  int x1 = ((0)) + 2;
  x1--;
  {
    int i2;
    while (i2 < 2)
    {
      i2 = i2 + 1;
      {
        {
          int i3;
          while (i3 < 2)
          {
            i3 = i3 + 1;
            {
              local int **l4 = malloc(3 * sizeof(int *));
              x1 = i2;
              printf("%ld %d %ld;", i2, !((i2)), ((i3)) + (i2 & x1));
            }
          }
        }
        printf("%ld %d!", (9 >= 4) << 4, ((2)));
      }
    }
  }
  if (((5)))
  {
    int x5;
    {
      int i6;
      for (i6 = 0; i6 < 1; i6++)
      {
        printf("%d!", (x5 ^ x5) * ((3)));
        printf("%d\n", ((x1)));
        printf("%ld %ld %d\n", (x1 * x1) - (x1 ^ x5), i6, (1 || 7) ^ (x1 % 3));
      }
    }
  }
  return (0 | 1) > (520 & 9);
}
int main(int n7, int n8)
{
  int x9 = n7;
  f1()@ANYWHERE;
  n7 = f1();
  printf("\n");
  if (((n8 && 1) == n8))
  {
    {
      int i10;
      for (i10 = 0; i10 < 4; i10++)
      {
        local int *l11 = malloc(2 * sizeof(int));
        l11[1] = (x9 % 2) <= (n8 > 7);
      }
    }
  }
  {
    int i12;
    forall (i12 = 0; i12 < 0; i12++)
    {
      int x13 = ((n7)) - (1 & x9);
      int x14 = ((x9)) ^ ((x13));
      {^
        {
          int x15;
          ;
          ;
        }
      ^}
    }
  }
  return f1();
}