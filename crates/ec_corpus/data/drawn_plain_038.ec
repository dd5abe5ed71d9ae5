#include <stdio.h>
#include <stdlib.h>
void f1()
{
  local int *l1 = (int *) malloc(3 * sizeof(int));
  ;
  ;
  ;
}
int main(int n2)
{
  int x3 = n2;
  x3++;
  x3++;
  return (n2 > n2) + (n2 || n2);
}
