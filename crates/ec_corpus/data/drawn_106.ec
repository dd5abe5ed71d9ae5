struct s { struct s *f2; struct s *f0; int v; int f1; };
int f1(shared int *a1)
{
  int x2 = ((9)) + (8 <= 784);
  int x3;
  writeto(a1, x2);
  {
    int i4;
    forall (i4 = 0; i4 < 2; i4++)
    {
      int x5 = valueof(a1);
      int x6 = valueof(a1);
      {
        shared int h7;
        addto(a1, malloc(3 * sizeof(int)) == NULL);
        writeto(&h7, (x5 && x2) < (valueof(&h7)));
      }
    }
  }
  x3--;
  return (4611686018427387904 > 5) - (3 ^ 815);
}
void f2(shared int *a8)
{
  {
    int i9;
    forall (i9 = 0; i9 < 3; i9++)
    {
      {
        int i10;
        for (i10 = 0; i10 < 3; i10++)
        {
          int x11;
          addto(a8, i9);
          writeto(a8, (i10 % 8) & (NULL == NULL));
        }
      }
    }
  }
  {
    int i12;
    forall (i12 = 0; i12 < 1; i12++)
      writeto(a8, malloc(3 * 3 * sizeof(struct s)) == NULL);
  }
  addto(a8, 9 * 938);
  {^
    {
      int x13 = (!5) > (587 << 4);
      struct s *p14 = malloc(3 * sizeof(struct s));
      writeto(a8, (8 >> 5) + (x13 ^ x13));
    }
    {
      int x15;
      x15 = -(x15 | 9);
    }
    {
      writeto(a8, (~6));
    }
  ^}
  ;
}
int f3(int a16, int a17, shared int *a18)
{
  int *p19 = malloc(2 * sizeof(int));
  f2(a18);
  a16--;
  a17++;
  writeto(a18, f1(a18));
  return 0;
}
void f4(int *a20)
{
  struct s *p21 = malloc(2 * sizeof(struct s));
  a20 = a20;
  if ((5 != 8)) return;
  {
    int i22;
    forall (i22 = 0; i22 < 4; i22++)
    {
      int x23;
      int x24;
      p21[0] = p21[1];
    }
  }
  {^
    ;
  ^}
}
int main(int n25)
{
  shared int h26;
  {
    int i27;
    while (i27 < 1)
    {
      i27 = i27 + 1;
      {
        int x28 = i27;
        n25++;
      }
    }
  }
  printf("%d %d %d\t", (n25 >> 9), 6 <= (!n25), n25);
  {^
    n25++;
  ^}
  printf("\t");
  return 9 % 1;
}
