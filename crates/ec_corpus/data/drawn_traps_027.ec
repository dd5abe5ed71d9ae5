int f1()
{
  int x1 = 4;
  int x2 = ((x1));
  x2++;
  return (3 != 6);
}
int *f2(int a3)
{
  int *p4;
  int x5 = a3;
  f1()@OWNER_OF(p4);
  {^
    {
      int x6 = x5 - (x5 >= x5);
      {
        int i7;
        while (i7 < 3)
        {
          i7 = i7 + 1;
          {
            shared int h8;
            f1();
          }
        }
      }
    }
    {
      f1();
    }
    {
      {
        int i9;
        for (i9 = 3; i9 > 0; )
        {
          i9--;
          {
            f1()@ANYWHERE;
            *p4 = (p4 != NULL) + (4 >> 4);
          }
        }
      }
    }
  ^}
  {^
    f1();
  ^}
  return malloc(4 * sizeof(int));
}
int f3()
{
  shared int h10;
  local int *l11 = malloc(2 * sizeof(int));
  *l11 = 1;
  *l11 = 5 && (l11[0]);
  addto(&h10, -(4294967296 != 607));
  *l11 = (2 - 9) + (1 <= 5);
  {
    int i12;
    forall (i12 = 0; i12 < 3; i12++)
    {
      int x13 = (valueof(&h10)) <= (i12 < 386);
      {
        int i14;
        for (i14 = 0; i14 < 1; i14++)
        {
          writeto(&h10, x13 << 4);
          addto(&h10, l11 == NULL);
          addto(&h10, 1);
        }
      }
      {
        int i15;
        forall (i15 = 0; i15 < 3; i15++)
        {
          int x16 = x13 + (i15 > x13);
          *l11 = l11 != NULL;
          x13 = x16;
        }
      }
    }
  }
  return 1;
}
int f4(shared int *a17, int a18, int a19)
{
  local int *l20 = (int *) malloc(2 * sizeof(int));
  l20[0] = (a18 >= a19) & (a18 == a19);
  a18 = f3()@OWNER_OF(l20);
  addto(a17, (l20 != l20) + (424 / a19));
  if ((~(4 - a18)))
  {
    {
      int i21;
      forall (i21 = (l20[1]) & 3; i21 < 4; i21 = i21 + 1)
        writeto(a17, 2);
    }
    a18 = 7 / a18;
  }
  return 0 || (a19 && a18);
}
int main(int n22)
{
  int x23 = (n22 * n22) * (n22 * 552);
  local int **l24 = malloc(3 * sizeof(int *));
  printf("%d %d%%", (8), 1);
  if ((8 <= (5 - x23)))
  {
    local int *l25 = malloc(4 * sizeof(int));
    local int *l26 = malloc(1 * sizeof(int));
    if (((*l25) < (!76)))
    {
      l25[3] = 6;
      printf("%d\t", n22);
      f1()@ANYWHERE;
    }
    else
    {
      int x27 = 463;
      f1();
      printf("!");
    }
    l26 = l25;
  }
  {^
    {
      local int **l28 = malloc(4 * sizeof(int *));
      int x29 = (f3()) >> 6;
      {
        int i30;
        while (i30 < 1)
        {
          i30 = i30 + 1;
          {
            f1();
            f3();
          }
        }
      }
    }
    f3()@NODE(157 && 3);
    x23++;
  ^}
  if (7)
  {
    int x31 = (l24 || x23) % 8;
    x23 = (~310) > (~x31);
  }
  if ((n22 << (n22 / 2)))
  {
    if (l24)
    {
      f2(4294967296)@NODE(x23 == n22);
      printf("%d %ld\t", 2, 1);
    }
    else
    {
      printf("%ld %d %ld\n", 4 + (5 << 2), !(n22 / 4), (f1()@NODE(9)) + ((2)));
      ;
    }
    x23++;
    printf("!");
  }
  return n22;
}
