#include <stdio.h>
struct node { int v; struct node *next; };
struct node *push(struct node *h, int v) { struct node *n = (struct node *) malloc(sizeof(struct node)); n->v = v; n->next = h; return n; }
struct node *reverse(struct node *h) { struct node *r = NULL; while (h != NULL) { struct node *t = h->next; h->next = r; r = h; h = t; } return r; }
int main() { struct node *h = NULL, *p; int i, s = 0; for (i = 0; i < 6; i++) h = push(h, i * i - 3);
  h = reverse(h); for (p = h; p; p = p->next) { printf("%ld ", p->v); s = s * 3 + p->v; } return s & 63; }
