/* A tree built from both sides at once: each call makes its own node of it, and its subtrees run side by side. */
struct tree {
  int depth;
  struct tree *left;
  struct tree *right;
};

struct tree *build(int depth) {
  struct tree *t;
  struct tree *a;
  struct tree *b;
  if (depth == 0) { return NULL; }
  t = malloc(sizeof(struct tree));
  {^
    a = build(depth - 1);
    b = build(depth - 1)@ANYWHERE;
  ^}
  t->depth = depth;
  t->left = a;
  t->right = b;
  return t;
}

int main() {
  struct tree *t;
  t = build(2);
  return t->depth;
}
