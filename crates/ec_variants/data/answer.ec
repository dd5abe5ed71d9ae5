/* The smallest program that says something: a printf with one argument, and the result of main.
   Run it by `earthc run examples/answer.ec`. It prints 42 and a line feed; `result 0` comes on the error stream. */
int main() {
  printf("%d\n", 6 * 7);
  return 0;
}
