/* A list whose cells lie on several nodes: a parallel loop looks at each cell on the node that owns it, and counts. */
#include <stdio.h>

struct cell {
  int value;
  struct cell *next;
};

struct cell *push(int value, struct cell *rest) {
  local struct cell *c;
  c = (struct cell *) malloc(sizeof(struct cell));
  c->value = value;
  c->next = rest;
  return c;
}

int holds(local struct cell *p, int x) { return p->value == x; }

int main() {
  struct cell *head;
  struct cell *p;
  int i;
  shared int count;
  for (i = 1; i <= 5; i++) { head = push(i % 3, head)@NODE(i); }
  forall (p = head; p != NULL; p = p->next) {
    int found;
    found = holds(p, 2)@OWNER_OF(p);
    if (found) { addto(&count, 1); }
  }
  printf("%d\n", valueof(&count));
  return 0;
}
