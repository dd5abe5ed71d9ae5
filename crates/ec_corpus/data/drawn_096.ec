struct s { int f0[4]; int v; int f1; };
struct tree { int f2; int v; struct s *f3; int f0; int f1; };
void f1(shared int *a1)
{
  local struct s *l2 = malloc(3 * sizeof(struct s));
  if (((valueof(a1))))
  {
    struct tree *p3 = malloc(4 * sizeof(struct tree));
    if (((7 ^ 2) || (malloc(2 * sizeof(struct tree)) && 519)))
    {
      int x4;
      int *p5 = malloc(2 * sizeof(int));
      writeto(a1, 6 * x4);
      addto(a1, (x4 / 2));
    }
    else
    {
      int *p6 = malloc(1 * sizeof(int));
      addto(a1, (4 | 9) > (p6 == NULL));
    }
    addto(a1, (3 ^ 7));
  }
  l2[0] = *l2;
}
int f2(int *a7, local int *a8, int a9)
{
  int x10 = (a9 < 2) <= (a9 == a9);
  x10++;
  ;
  {^
    {
      ;
      if ((~878))
      {
        x10 = ~((a9));
        ;
        x10 = a8[0];
      }
      else
      {
        ;
      }
    }
    {
      {
        int i11;
        for (i11 = 2; i11 > 0; )
        {
          i11--;
          {
            ;
            ;
          }
        }
      }
      ;
    }
  ^}
  {^
    ;
    {
      ;
      x10 = a9;
    }
  ^}
  ;
  return ((a9));
}
int f3()
{
  int x12 = !1;
  {
    int i13;
    forall (i13 = 0; i13 < 0; i13++)
      ;
  }
  x12++;
  {
    int i14;
    for (i14 = 0; i14 < 3; i14++)
    {
      f2(malloc(5 * sizeof(int)), NULL, 3 ^ 5)@NODE(f2(NULL, malloc(2 * 1 * sizeof(int)), x12));
      f2((int *) malloc(sizeof(int)), malloc((5 % 1) * sizeof(int)), f2(NULL, NULL, 2)@ANYWHERE);
    }
  }
  f2((int *) malloc(3 * 3 * sizeof(int)), malloc(sizeof(int)), -9);
  return (~2) <= 2;
}
int main(int n15)
{
  if (((n15 / 8) % n15))
  {
    int x16;
    int x17 = malloc(sizeof(int)) && (n15 + n15);
    n15 = x17;
  }
  return n15;
}
