struct s { int *f0; int v; };
void f1(int a1, int a2, struct s *a3)
{
  int x4;
  shared int h5;
  a3[0] = a3[3];
}
int f2()
{
  local struct s *l6 = malloc(1 * sizeof(struct s));
  printf("\n");
  return (6 > 1) <= (9 == 8);
}
int f3(int a7, struct s *a8, local int **a9)
{
  f1((a7), 1 <= a7, a8);
  return ((a7)) << (a9 == NULL);
}
void f4(int a10)
{
  shared int h11;
  {
    int i12;
    for (i12 = 3; i12 > 0; )
    {
      i12--;
      {
        local int *l13 = (int *) malloc(2 * sizeof(int));
        local int *l14 = (int *) malloc(4 * sizeof(int));
        f3(l14 == NULL, (struct s *) malloc(3 * sizeof(struct s)), NULL)@NODE(a10 >= a10);
        a10++;
      }
    }
  }
  a10 = f3(a10, malloc(sizeof(struct s)), NULL)@HOME;
}
int main(int n15, int n16)
{
  f4(n15 * n15);
  return (n15 * n16) * (n15 - n15);
}
