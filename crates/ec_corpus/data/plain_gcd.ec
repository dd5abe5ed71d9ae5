#include <stdio.h>
int gcd(int a, int b) { while (b != 0) { int t = b; b = a % b; a = t; } return a; }
int main() { int i; for (i = 1; i < 12; i++) { int g; g = gcd(i * 12, 84); printf("%ld ", g); } return gcd(1071, 462); }
