#include <stdio.h>
struct t { int k; struct t *l; struct t *r; };
struct t *insert(struct t *t, int k) { if (t == NULL) { t = (struct t *) malloc(sizeof(struct t)); t->k = k; t->l = NULL; t->r = NULL; return t; }
  if (k < t->k) t->l = insert(t->l, k); else if (k > t->k) t->r = insert(t->r, k); return t; }
void show(struct t *t) { if (!t) { printf("."); return; } printf("("); show(t->l); printf("%ld", t->k); show(t->r); printf(")"); }
int depth(struct t *t) { int a, b; if (t == NULL) return 0; a = depth(t->l); b = depth(t->r); if (a > b) return a + 1; return b + 1; }
int main() { struct t *t = NULL; int i, x = 5; for (i = 0; i < 15; i++) { x = (x * 7 + 3) % 23; t = insert(t, x); } show(t); return depth(t); }
