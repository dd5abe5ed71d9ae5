struct s { int f0; struct box *f1; int v; };
struct tree { int v; int *f1; int f0; };
struct box { struct box *f0; int v; };
int f1()
{
  {
    int i1;
    forall (i1 = 0; i1 < 1; i1++)
      ;
  }
  return 9;
}
void f2(int a2)
{
  int *p3 = malloc(3 * sizeof(int));
  a2++;
  f1();
  printf("%d\n", a2);
  f1()@NODE(f1());
  {
    int i4;
    for (i4 = 0; i4 < 1; i4++)
    {
      {
        int i5;
        forall (i5 = 0; i5 < 0; i5++)
          *p3 = (f1()@NODE(f1()));
      }
    }
  }
}
struct tree *f3()
{
  int x6 = f1();
  x6++;
  if (malloc(sizeof(int)))
  {
    f1()@OWNER_OF(NULL);
    {
      int i7;
      for (i7 = 0; i7 < 3; i7++)
      {
        int x8;
        f1();
        x8++;
        x6++;
      }
    }
    f1()@ANYWHERE;
  }
  f1();
  {
    ;
    x6++;
    {
      int i9;
      for (i9 = 0; i9 < 3; i9++)
      {
        f1();
        f1()@NODE(1);
      }
    }
  }
  return malloc(3 * 3 * sizeof(struct tree));
}
struct box *f4(int a10)
{
  {
    int i11;
    forall (i11 = 0; i11 < 0; i11++)
      f1();
  }
  return (struct box *) malloc(1 * 3 * sizeof(struct box));
}
int main(int n12)
{
  struct s *p13 = malloc(2 * sizeof(struct s));
  ;
  return malloc(sizeof(int)) == NULL;
}
