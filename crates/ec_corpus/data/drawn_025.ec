struct s { int f2; int f1[1]; int *f0; int f3; int v; };
struct tree { struct box *f2; int f1; int v; int f0[2]; };
struct box { int f0[3]; int v; };
void f1(shared int *a1)
{
  shared int h2;
  int *p3 = (int *) malloc(1 * sizeof(int));
  ;
  {^
    {
      local int *l4 = malloc(4 * sizeof(int));
      ;
      ;
    }
    {
      addto(&h2, (6 + 3) - (6 ^ 5));
      writeto(a1, (valueof(&h2)) / (4 - 0));
    }
  ^}
  ;
}
int main()
{
  struct s *p5 = malloc(4 * sizeof(struct s));
  ;
  ;
  ;
  return (9 >= 0) + ((5));
}
