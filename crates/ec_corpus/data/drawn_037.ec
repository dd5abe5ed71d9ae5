int *f1(int a1, int a2)
{
  {
    int i3;
    for (i3 = 0; i3 < 1; i3++)
    {
      int x4 = a2 >= (a1 >> 9);
      shared int h5;
      {^
        {
          writeto(&h5, (a1 >= x4) || (i3 | a1));
          x4 = i3 != (i3 / 1);
        }
        {
          int *p6;
          addto(&h5, i3);
        }
      ^}
      {
        int i7;
        for (i7 = 0; i7 < 3; i7++)
        {
          int x8 = malloc(3 * sizeof(int)) != (int *) malloc(2 * sizeof(int));
          x8++;
        }
      }
      addto(&h5, ~a2);
    }
  }
  {^
    ;
  ^}
  return malloc(sizeof(int));
}
void f2(shared int *a9)
{
  {^
    f1(!2, ~395);
    {
      shared int h10;
      shared int h11;
      {
        int i12;
        for (i12 = 0; i12 < 2; i12++)
        {
          int x13;
          writeto(a9, i12);
          x13++;
          x13++;
        }
      }
      if (f1(4294967296, 1048576))
      {
        writeto(a9, (valueof(&h10)) != ((7)));
        writeto(a9, ~2);
      }
    }
    {
      shared int h14;
      ;
    }
  ^}
  {
    int i15;
    forall (i15 = 0; i15 < 0; i15++)
    {
      ;
      if (((0 <= 9) != (NULL != NULL)))
      {
        shared int h16;
        writeto(&h16, 180 - ((i15)));
      }
    }
  }
  {^
    {
      local int *l17 = (int *) malloc(1 * sizeof(int));
      shared int h18;
      {^
        {
          int *p19 = malloc(1 * sizeof(int));
          addto(a9, (886 || 1) & (valueof(&h18)));
          addto(&h18, p19[0]);
        }
        addto(&h18, ((4)) >= (4294967296 - 9));
      ^}
      writeto(a9, (9223372036854775807 + 2) <= (9 - 5));
    }
    addto(a9, 1);
  ^}
  {^
    writeto(a9, 3 || f1(3, 4));
    {
      int x20 = (9 > 8) / 9;
      x20 = f1(x20, x20) || ((4));
      x20 = (4);
    }
    {
      int *p21 = (int *) malloc(2 * sizeof(int));
      int *p22 = malloc(1 * sizeof(int));
      addto(a9, ((0)) + (0 && 3));
    }
  ^}
  ;
}
int *f3()
{
  int *p23 = malloc(1 * sizeof(int));
  ;
  f1(9 ^ 8, (7));
  p23[0] = p23[0];
  {^
    ;
  ^}
  return f1(238, 0);
}
int f4(local int *a24, int *a25, int a26)
{
  f3();
  f1(a26 | a26, 2 + 935);
  return a26;
}
int main()
{
  if (((2 + 288) || 8))
  {
    int *p27 = (int *) malloc(3 * sizeof(int));
    {
      int i28;
      forall (i28 = 0; i28 < 2; i28++)
        ;
    }
    p27[2] = (-9) != (4294967296 << 7);
  }
  {^
    f3()@NODE(5 - 0);
  ^}
  {^
    ;
    ;
  ^}
  {
    int i29;
    for (i29 = 0; i29 < 3; i29++)
    {
      int x30;
      shared int h31;
      {
        int i32;
        forall (i32 = 0; i32 < 2; i32++)
        {
          addto(&h31, 5);
        }
      }
      f1(f4(NULL, NULL, 1048576)@HOME, x30 - i29)@NODE(valueof(&h31));
    }
  }
  return (5 && 2) % 8;
}
