#include <stdio.h>
int main(){ /* a */ printf("é{^"); // b
 return 3; }