/* Divide and conquer: both halves of a sum are computed side by side, the second on whichever node has time for it. */
#include <stdio.h>

int fib(int n) {
  int a;
  int b;
  if (n < 2) { return n; }
  {^
    a = fib(n - 1);
    b = fib(n - 2)@ANYWHERE;
  ^}
  return a + b;
}

int main(int n) {
  printf("%d\n", fib(n));
  return 0;
}
