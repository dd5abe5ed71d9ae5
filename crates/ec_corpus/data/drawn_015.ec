struct s { int v; };
int f1()
{
  ;
  {
    int x1;
    int *p2 = (int *) malloc(3 * sizeof(int));
    p2[1] = ((x1));
    ;
  }
  return ((2));
}
void f2(int a3, int a4, int a5)
{
  if ((f1()@OWNER_OF(NULL)))
  {
    f1()@HOME;
    f1()@OWNER_OF(NULL);
  }
  else
  {
    if (((-a3) || malloc(sizeof(int))))
    {
      local struct s *l6 = malloc(1 * sizeof(struct s));
      printf("%%");
    }
    a3++;
  }
}
int **f3(shared int *a7)
{
  ;
  f2(valueof(a7), 9 < 7, 223 == 1);
  {
    int i8;
    forall (i8 = 0; i8 < 1; i8++)
    {
      ;
    }
  }
  ;
  return malloc(sizeof(int *));
}
int main(int n9)
{
  {
    struct s *p10 = (struct s *) malloc(1 * sizeof(struct s));
    ;
    {^
      p10[0] = p10[0];
      {
        int x11 = (n9 & 428) && malloc(sizeof(struct s));
        f1();
        f1();
      }
    ^}
  }
  n9++;
  n9--;
  return (f1()) - (n9 >= n9);
}
