void f1()
{
  local int *l1 = (int *) malloc(4 * sizeof(int));
  {
    int i2;
    forall (i2 = 0; i2 < 0; i2++)
      ;
  }
}
int f2(int **a3, int a4, int *a5)
{
  int r6;
  local int *l7 = (int *) malloc(1 * sizeof(int));
  if (a4 > 0) r6 = f2(a3, (a4 & 3) - 1, a5);
  ;
  r6--;
  return ((a4)) % 8;
}
int main()
{
  printf("%ld %ld %ld\t", !(~6), f2(malloc(1 * sizeof(int *)), f2(NULL, 265, NULL)@OWNER_OF(NULL), (int *) malloc(4 * sizeof(int))), 5 / (-2));
  f2(malloc(sizeof(int *)), NULL == NULL, malloc(sizeof(int)))@NODE(5);
  return f2(malloc(4 * sizeof(int *)), 3 || 0, (int *) malloc((4 >= 0) * sizeof(int)));
}