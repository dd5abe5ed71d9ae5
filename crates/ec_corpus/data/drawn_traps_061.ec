struct s { int f0; int v; };
struct tree { int v; };
void f1(struct tree *a1)
{
  if (((9 & 6) * 2))
  {
    ;
    {
      int i2;
      for (i2 = 2; i2 > 0; )
      {
        i2--;
        {
          ;
          ;
        }
      }
    }
    {^
      {
        ;
      }
    ^}
  }
  else
  {
    int x3 = (a1 == NULL);
    int **p4 = malloc(1 * sizeof(int *));
    {
      struct tree *p5 = (struct tree *) malloc(3 * sizeof(struct tree));
      ;
    }
    {
      int i6;
      forall (i6 = 0; i6 < 1; i6++)
        ;
    }
  }
  {^
    {
      ;
      if (((!2) / (4 + 7)))
      {
        int x7 = (9 && 2) + ((6));
        ;
        ;
      }
    }
    a1[0] = *a1;
  ^}
  {^
    ;
  ^}
  ;
  if (((*a1).v))
  {
    local struct s *l8 = malloc(1 * sizeof(struct s));
    ;
    if (l8)
    {
      a1->v = ~3;
    }
    else
    {
      ;
    }
    a1[0] = *a1;
  }
}
int main(int n9, int n10)
{
  n9++;
  n9 = (1 % 4) * ((n10));
  return -(NULL == NULL);
}
