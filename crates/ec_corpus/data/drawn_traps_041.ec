struct s { int *f2; struct box *f3; struct box *f1; int v; int f0; };
struct tree { int f0[1]; int f1; int v; };
struct box { int v; struct box *f0; int f1; };
int f1()
{
  {
    ;
    ;
  }
  ;
  return ~0;
}
int main(int n1, int n2)
{
  printf("%ld\t", n2);
  {^
    f1();
  ^}
  return (f1()) - 4;
}