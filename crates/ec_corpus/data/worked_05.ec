struct pair { int x; int y; };
struct pair *mk(int v) { struct pair *q; q = malloc(sizeof(struct pair));
  q->x = v; q->y = v + 1; return q; }
int main() { struct pair *a; struct pair *b; a = mk(7)@NODE(3);
  b = malloc(sizeof(struct pair)); *b = *a; printf("%d %d\n", b->x, b->y); return 0; }