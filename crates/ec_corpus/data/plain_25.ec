#include <stdio.h>
struct s { int v; };
struct tree { int v; };
int f1()
{
  ;
  ;
  printf("%%");
  printf("-");
  if (9)
  {
    int x1;
    x1++;
    x1 = (NULL != NULL) & 7;
    x1 = (NULL != NULL);
  }
  return (123);
}
int main()
{
  int x2 = ((1)) && (!3);
  printf("%ld %ld %ld\n", x2, x2, x2);
  printf("%ld;", x2);
  printf("\n");
  printf("%ld %ld\n", x2, x2);
  return 3;
}
