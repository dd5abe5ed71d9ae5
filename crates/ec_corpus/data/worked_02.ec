int fib(int n) { int a; int b; if (n < 2) { return n; }
  {^ a = fib(n - 1); b = fib(n - 2)@ANYWHERE; ^} return a + b; }
int main(int n) { int r; r = fib(n); printf("%d\n", r); return 0; }