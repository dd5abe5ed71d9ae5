struct s { struct tree *f2; struct box *f1; int f0; int v; int f3; };
struct tree { int v; int f1[4]; int f0[1]; };
struct box { int f1[3]; struct box *f0; int v; int *f2; };
int *f1(int a1, shared int *a2)
{
  shared int h3;
  addto(a2, a1);
  if ((a1 && 0))
  {
    {^
      addto(a2, valueof(a2));
      {
        addto(&h3, (a1 - a1) != (7 % 9));
        a1 = 4611686018427387904;
      }
      addto(&h3, a1);
    ^}
    {^
      addto(a2, 7);
      {
        int x4;
        local struct box *l5 = malloc(3 * sizeof(struct box));
        writeto(a2, ~(valueof(a2)));
      }
    ^}
  }
  a1++;
  if (((a1 && a1) != 2))
  {
    int *p6 = malloc(4 * sizeof(int));
    if (a1)
    {
      int x7 = (valueof(a2)) % (p6 != p6);
      addto(&h3, valueof(&h3));
      addto(a2, (p6 != NULL) + (x7 || 7));
    }
    else
    {
      a1++;
      a1++;
    }
    {^
      a1++;
      {
        shared int h8;
        p6[0] = (int *) malloc(sizeof(int)) != p6;
        a1++;
      }
      addto(&h3, (a1 + 9223372036854775807) && ((a1)));
    ^}
    if (p6)
    {
      shared int h9;
      addto(&h3, -(valueof(a2)));
      writeto(&h9, -930);
    }
  }
  a1++;
  return malloc(sizeof(int));
}
struct s *f2(int a10, int a11, shared int *a12)
{
  int x13;
  {
    int i14;
    for (i14 = 0; i14 < 1; i14++)
    {
      {
        int i15;
        for (i15 = 0; i15 < 1; i15++)
        {
          int x16;
          int x17;
          printf("%ld %ld\n", (x16 > a11) * ((x16)), !(1 & a11));
          x13 = (x13 * 139) || (valueof(a12));
          f1(i15 % 5, a12);
        }
      }
      a10 = valueof(a12);
    }
  }
  x13 = f1(a10, a12) != NULL;
  {^
    writeto(a12, valueof(a12));
    a11--;
    {
      local struct tree *l18 = (struct tree *) malloc(4 * sizeof(struct tree));
      {^
        {
          shared int h19;
          addto(a12, x13);
        }
        {
          int x20 = a10;
          writeto(a12, x20);
        }
      ^}
      {
        int i21;
        for (i21 = 0; i21 < 1; i21++)
        {
          addto(a12, valueof(a12));
        }
      }
    }
  ^}
  if (((valueof(a12)) | (valueof(a12))))
  {
    {
      int i22;
      for (i22 = 0; i22 < 4; i22++)
      {
        int x23 = x13;
        int x24 = valueof(a12);
        printf("%d %d %ld\t", (6 - 0) ^ (NULL == NULL), x24, (valueof(a12)));
        printf("%ld %ld%%", (x23 + a10) << 5, ((x13)) - x13);
      }
    }
    if (((a11 && a10) || (a10 == x13)))
    {
      printf("%d %ld %d\t", x13 > (valueof(a12)), (a11 - 0) - (NULL == NULL), x13);
    }
    x13 = (a10);
  }
  return malloc(sizeof(struct s));
}
struct s *f3(int a25)
{
  struct s *r26;
  if (a25 > 0) {^ r26 = f3((a25 & 3) - 1); ; ^}
  ;
  return malloc(sizeof(struct s));
}
int main(int n27, int n28)
{
  int x29 = -(8 + 6);
  n28 = n28;
  {^
    {
      {
        int i30;
        forall (i30 = 0; i30 < 0; i30++)
        {
          int x31;
          f3(~7);
        }
      }
    }
    ;
  ^}
  return n28;
}
