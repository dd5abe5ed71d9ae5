int f1(int a1, int a2, int *a3)
{
  int r4;
  if (a1 > 0) r4 = f1((a1 & 3) - 1, a2, a3);
  {^
    {
      int x5;
      ;
      {
        int i6;
        for (i6 = 0; i6 < 3; i6++)
        {
          ;
          a2++;
        }
      }
    }
  ^}
  if (((8 | r4) - (1 & a1)))
  {
    int *p7 = malloc(3 * sizeof(int));
    {
      int i8;
      for (i8 = 0; i8 < 4; i8++)
      {
        printf("%d %ld %d!", (*p7), p7[0], -i8);
        printf("%d\t", (518 - i8) >= ((0)));
        printf("%ld\n", (*p7) != (p7[0]));
      }
    }
  }
  {
    int i9;
    for (i9 = 0; i9 < 2; i9++)
    {
      int x10 = ((4));
      {
        int i11;
        for (i11 = 0; i11 < 3; i11++)
        {
          printf("%d %d\n", (i11 - a2) == (-7), a3[0]);
          a3[2] = (x10 - 1048576);
          a2 = i11;
        }
      }
      r4--;
    }
  }
  a3[0] = -r4;
  return a2;
}
int main(int n12)
{
  int r13;
  int x14 = (int *) malloc(sizeof(int)) != NULL;
  if (n12 > 0) r13 = main((n12 & 3) - 1);
  {
    int i15;
    forall (i15 = 0; i15 < 1; i15++)
    {
      int x16 = ((i15)) || malloc(4 * sizeof(int));
      ;
      ;
    }
  }
  if ((f1(x14, 2, NULL)@OWNER_OF(NULL))) return (x14 << 2) + 0;
  {
    int i17;
    forall (i17 = 0; i17 < 2; i17++)
    {
      int x18 = !(0 - 4);
      r13 = malloc(sizeof(int)) || ((6));
      r13++;
    }
  }
  if ((int **) malloc(3 * sizeof(int *)))
  {
    int x19 = ~(-x14);
    printf("%ld %d %d\t", f1(x14 > 6, x14, malloc(sizeof(int))), ((r13)) <= (f1(0, r13, NULL)@HOME), 4611686018427387904);
  }
  return (n12 / 6) <= (n12 * n12);
}
