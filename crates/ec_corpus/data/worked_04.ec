struct tree { int v; struct tree *l; struct tree *r; };
struct tree *build(int d) { struct tree *t; struct tree *a; struct tree *b;
  if (d == 0) { return NULL; } t = malloc(sizeof(struct tree));
  {^ a = build(d - 1); b = build(d - 1)@ANYWHERE; ^}
  t->v = d; t->l = a; t->r = b; return t; }
int main() { struct tree *t; t = build(2); return t->v; }