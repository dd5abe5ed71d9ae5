struct s { int v; };
struct tree { struct box *f2; int *f1; struct box *f0; int v; int f3; };
struct box { int f1; int f3; int v; struct s *f2; int *f0; };
int f1(int a1)
{
  printf("%ld\n", (a1 - a1) == (852 != 211));
  return ((4));
}
int main(int n2)
{
  int x3 = (6 / 1) + (f1(5));
  int x4 = 951 ^ (x3 || 5);
  printf("\n");
  {^
    {
      n2 = x3 ^ (malloc(sizeof(int)) || x4);
      {^
        ;
      ^}
    }
    ;
  ^}
  if ((-(n2 * x4)))
  {
    if (malloc(sizeof(int)))
    {
      shared int h5;
      x4++;
      x4++;
    }
    {
      printf("%d %ld %ld\n", (f1(6)) | (f1(x3)@NODE(1)), (4 && 8) * (6 || 2), x3 || (NULL != NULL));
      printf("%d\n", x3);
      n2++;
    }
  }
  else
  {
    ;
  }
  return NULL != (int *) malloc(sizeof(int));
}
