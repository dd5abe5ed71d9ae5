struct s { struct s *f1; struct s *f2; int v; struct s *f0; int f3; };
int f1()
{
  int x1 = ((struct s *) malloc(2 * sizeof(struct s)) && 9) & (7 + 1);
  int x2 = (x1);
  {
    int i3;
    forall (i3 = 0; i3 < 2; i3++)
      x1++;
  }
  {
    int i4;
    forall (i4 = 0; i4 < 2; i4++)
      ;
  }
  return (!0) ^ ((748));
}
int main()
{
  struct s *p5;
  int x6 = 0;
  {^
    {
      int x7 = (x6 >= x6) >> x6;
      if (p5)
      {
        f1()@OWNER_OF(p5);
      }
      else
      {
        struct s *p8;
        f1();
        f1();
      }
    }
    (*p5).v = p5->f1 == malloc(sizeof(struct s));
    f1()@OWNER_OF(p5);
  ^}
  p5[1] = p5[0];
  f1();
  f1()@OWNER_OF(p5);
  return -8;
}
