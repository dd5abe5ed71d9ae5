int w1(int n) { int i; shared int s;
forall (i = 0; i < n; i++) addto(&s, i * i);
return valueof(&s) + 1; }
int main(int n) { int a, b, r;
{^ a = w1(n)@ANYWHERE; b = w1(n); ^}
r = r + a + b; printf("work %d is %d\n", 1, r);
return r; }
