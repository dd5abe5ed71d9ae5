/* The sum of a tree: both halves are added side by side, each on the node that owns it.
   Evaluate it by `earthc means examples/treesum.ec`. It prints the line
     1 + 2 + .. + 100 = 5050
   With a number behind the name, as in `earthc means examples/treesum.ec 10`, it adds up to that. */
#include <stdio.h>

struct tree {
  int value;
  struct tree *left;
  struct tree *right;
};

/* a tree of the numbers from low to high, in order */
struct tree *build(int low, int high) {
  struct tree *t;
  struct tree *left;
  struct tree *right;
  int middle;
  if (low > high) { return NULL; }
  middle = (low + high) / 2;
  {^
    left = build(low, middle - 1);
    right = build(middle + 1, high)@ANYWHERE;
  ^}
  t = malloc(sizeof(struct tree));
  t->value = middle;
  t->left = left;
  t->right = right;
  return t;
}

int sum(struct tree *t) {
  struct tree *left;
  struct tree *right;
  int low;
  int high;
  if (t == NULL) { return 0; }
  left = t->left;
  right = t->right;
  {^
    low = sum(left)@OWNER_OF(left);
    high = sum(right)@OWNER_OF(right);
  ^}
  return low + t->value + high;
}

int main(int n) {
  if (n == 0) { n = 100; }
  printf("1 + 2 + .. + %d = %d\n", n, sum(build(1, n)));
  return 0;
}
