int f1(int *a1, int *a2)
{
  a2[0] = 1;
  return (a1[0]) || (~0);
}
void f2(int *a3, int a4, int a5)
{
  int x6;
  int x7;
  if ((a3[0]))
  {
    int *p8 = malloc(4 * sizeof(int));
    {
      int i9;
      while (i9 < 4)
      {
        i9 = i9 + 1;
        {
          int x10 = a3 == NULL;
          printf("\n");
        }
      }
    }
    printf("%ld;", (x6 == a4) ^ (a5 - 4));
  }
  else
  {
    shared int h11;
    int x12;
    addto(&h11, f1(a3, a3));
  }
}
int f3()
{
  f1(malloc(sizeof(int)), malloc(2 * sizeof(int)));
  ;
  return 4 && (1 < 57);
}
int f4(local int **a13, int *a14, int *a15)
{
  f2(a14, ~9, *a14)@OWNER_OF(a14);
  {
    int i16;
    forall (i16 = 0; i16 < 2; i16++)
      a15[2] = (i16 + i16) & (a14[3]);
  }
  a15[0] = a15[0];
  printf("%%");
  printf("%ld %d\n", (f1(a15, a14)) - (3 + 204), 0);
  return 2;
}
int main(int n17, int n18)
{
  int x19 = f1(malloc(sizeof(int)), malloc(sizeof(int)));
  if (((n18 & x19) <= (!n17)))
  {
    int **p20 = malloc(2 * sizeof(int *));
    int *p21 = (int *) malloc(1 * sizeof(int));
    f2(p21, x19 | n17, 4294967296 * 6);
  }
  n17 = f3();
  {
    int **p22 = (int **) malloc(2 * sizeof(int *));
    if (0)
    {
      int x23 = n17 + (f3());
      printf("%ld %d%%", (n18 ^ x23) * (f4(malloc(3 * 2 * sizeof(int *)), NULL, NULL)), (f1(NULL, NULL)) != (380 > 5));
      n18++;
    }
    if ((f3()))
    {
      printf("%d %ld;", (f4(malloc(sizeof(int *)), NULL, NULL)) * (115 - 1), p22 == (int **) malloc(sizeof(int *)));
      printf("%%");
      printf("\n");
    }
  }
  n18++;
  n18 = f3();
  return n17;
}
