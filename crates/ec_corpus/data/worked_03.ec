#include <stdio.h>
struct cell { int v; struct cell *next; };
struct cell *cons(int v, struct cell *n) { local struct cell *c;
  c = (struct cell *) malloc(sizeof(struct cell)); c->v = v; c->next = n; return c; }
int same(local struct cell *p, int x) { return p->v == x; }
int main() { struct cell *h; struct cell *p; int i; shared int count;
  for (i = 1; i <= 5; i++) { h = cons(i % 3, h)@NODE(i); }
  forall (p = h; p != NULL; p = p->next) {
    int s; s = same(p, 2)@OWNER_OF(p); if (s) { addto(&count, 1); } }
  printf("%d\n", valueof(&count)); return 0; }