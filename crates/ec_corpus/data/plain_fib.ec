#include <stdio.h>
int fib(int n) { int a, b; if (n < 2) return n; a = fib(n - 1); b = fib(n - 2); return a + b; }
int main() { int i, r; for (i = 0; i < 14; i++) { r = fib(i); printf("%ld ", r); } return r; }
