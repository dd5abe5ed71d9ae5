struct s { struct s *f1; struct s *f3; int f0[1]; int v; int f2; };
int f1(int a1, struct s *a2, shared int *a3)
{
  writeto(a3, a1 | (a1 + a1));
  return a2[valueof(a3)].f2;
}
int f2()
{
  ;
  {^
    {
      int x4;
      ;
    }
  ^}
  ;
  ;
  if (2)
  {
    int x5;
    {^
      {
        int x6 = malloc(sizeof(int)) == NULL;
        ;
      }
      {
        ;
        ;
      }
      ;
    ^}
    ;
    {
      int i7;
      forall (i7 = (x5 >> 8) & 3; i7 < 2; i7 = i7 + 1)
      {
        local int **l8 = (int **) malloc(2 * sizeof(int *));
        local int **l9 = malloc(1 * sizeof(int *));
        ;
      }
    }
  }
  return 8;
}
int f3(int a10)
{
  {
    int x11 = (a10 / a10) % a10;
    {
      shared int h12;
      struct s *p13 = (struct s *) malloc(3 * sizeof(struct s));
      writeto(&h12, (p13->v) > (7 < x11));
    }
  }
  printf("%ld %d %d!", f2()@NODE(f2()), 2 >= (a10 | a10), (4 + a10) | (9 / 7));
  {
    int i14;
    for (i14 = 2; i14 > 0; )
    {
      i14--;
      {
        int x15 = i14;
        struct s *p16 = malloc(2 * sizeof(struct s));
        ;
      }
    }
  }
  if (360)
  {
    shared int h17;
    int x18 = a10;
    f2();
  }
  else
  {
    {
      int i19;
      forall (i19 = 0; i19 < 0; i19++)
      {
        int x20 = (5 && 305) - 7;
        f2();
      }
    }
  }
  f2();
  return f2();
}
void f4(int a21, int a22, int a23)
{
  int x24 = (8 >= a23) == (7 >> a22);
  {
    int i25;
    forall (i25 = 0; i25 < 4; i25++)
    {
      struct s *p26;
      ;
      {
        int i27;
        forall (i27 = 1 & 3; i27 < 3; i27 = i27 + 1)
          f2()@HOME;
      }
    }
  }
  if (((f2()) && (x24 >= 2)))
  {
    struct s *p28;
    int x29;
    printf("!");
    a22 = 290;
    a23 = a21;
  }
  {
    int i30;
    for (i30 = 0; i30 < 1; i30++)
    {
      int *p31;
      int *p32 = malloc(1 * sizeof(int));
      {
        printf("!");
        printf("\n");
        printf("%d %d\n", ((i30)) < (p31 != NULL), (int *) malloc(sizeof(int)) || (8 / 5));
      }
      f3(a22 * 3);
      *p32 = 4;
    }
  }
  {
    int i33;
    for (i33 = 3; i33 > 0; )
    {
      i33--;
      {
        {
          int i34;
          for (i34 = 0; i34 < 4; i34++)
          {
            a23++;
            printf("%ld\n", x24);
            printf("%ld %d;", (f3(a21)@NODE(f2()@OWNER_OF(NULL))) + (~i33), (x24 > a22) && 777);
          }
        }
        f2()@ANYWHERE;
      }
    }
  }
  x24 = f2()@HOME;
}
int main(int n35)
{
  int r36;
  int x37 = r36;
  if (n35 > 0) r36 = main((n35 & 3) - 1);
  x37 = f3(~n35)@OWNER_OF(NULL);
  ;
  f2()@ANYWHERE;
  f4(3 ^ 2, f2(), r36 || n35);
  if (malloc(sizeof(int *)))
  {
    int *p38;
    f4(0, r36 - r36, 2 >> 6)@HOME;
    r36++;
  }
  return (-7) > (1 ^ n35);
}
