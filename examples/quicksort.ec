/* Quicksort of a list: the numbers below the first one and the others are sorted side by side, each into cells of its own.
   Evaluate it by `earthc means examples/quicksort.ec`. It prints the line
     1 1 2 3 4 5 6 9
   With a number behind the name, as in `earthc means examples/quicksort.ec 2718281828`, it sorts the digits of that. */
#include <stdio.h>

struct cell {
  int value;
  struct cell *next;
};

struct cell *push(int value, struct cell *rest) {
  struct cell *c;
  c = malloc(sizeof(struct cell));
  c->value = value;
  c->next = rest;
  return c;
}

/* the numbers of a list that are below a bound, or with 0 for `below` the others */
struct cell *part(struct cell *list, int bound, int below) {
  struct cell *found;
  while (list != NULL) {
    if ((list->value < bound) == below) { found = push(list->value, found); }
    list = list->next;
  }
  return found;
}

/* the first list, and behind it the second */
struct cell *append(struct cell *first, struct cell *second) {
  if (first == NULL) { return second; }
  return push(first->value, append(first->next, second));
}

struct cell *sort(struct cell *list) {
  struct cell *low;
  struct cell *high;
  if (list == NULL) { return NULL; }
  low = part(list->next, list->value, 1);
  high = part(list->next, list->value, 0);
  {^
    low = sort(low);
    high = sort(high)@ANYWHERE;
  ^}
  return append(low, push(list->value, high));
}

int main(int digits) {
  struct cell *list;
  if (digits == 0) { digits = 31415926; }
  while (digits > 0) {
    list = push(digits % 10, list);
    digits = digits / 10;
  }
  list = sort(list);
  while (list->next != NULL) {
    printf("%d ", list->value);
    list = list->next;
  }
  printf("%d\n", list->value);
  return 0;
}
