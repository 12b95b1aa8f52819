/* The two pointers lead to parts that don't meet.
   expect: none */
#include <stdio.h>
static void add(int n, const double *x, double *y) {
#pragma omp parallel for
    for (int i = 0; i < n; i++) y[i] += 2 * x[i];
}
int main(void) {
    double a[40];
    for (int i = 0; i < 40; i++) a[i] = i;
    add(20, a, a + 20);
    printf("%g\n", a[30]);
}
