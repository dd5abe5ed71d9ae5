struct s { int v; int f1[4]; int f0; };
struct tree { int *f1; int f0; int v; };
struct box { int f1; int v; int f0[3]; };
int f1()
{
  shared int h1;
  struct tree *p2 = malloc(3 * sizeof(struct tree));
  {^
    ;
    writeto(&h1, (!4) != (valueof(&h1)));
  ^}
  ;
  ;
  ;
  return (4 * 9);
}
int main(int n3, int n4)
{
  int x5 = f1();
  int x6 = !(!n3);
  f1();
  {^
    f1();
    f1();
    f1();
  ^}
  {
    int i7;
    for (i7 = 2; i7 > 0; )
    {
      i7--;
      {
        int x8 = f1()@ANYWHERE;
        struct box *p9 = malloc(1 * sizeof(struct box));
        f1();
      }
    }
  }
  return (f1()@OWNER_OF(NULL)) != n3;
}
