struct s { int v; };
struct tree { int f2; int f1[1]; int f0[1]; int f3[2]; int v; };
void f1()
{
  ;
}
int **f2(local int *a1, int a2, int a3)
{
  {^
    f1()@ANYWHERE;
  ^}
  return malloc(5 * sizeof(int *));
}
int main(int n4)
{
  {
    int i5;
    while (i5 < 2)
    {
      i5 = i5 + 1;
      {
        n4++;
      }
    }
  }
  n4++;
  f1();
  return ((9));
}
