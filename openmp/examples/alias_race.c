/* The two pointers lead to parts that overlap.
   expect: race y x */
#include <stdio.h>
static void add(int n, const double *x, double *y) {
#pragma omp parallel for
    for (int i = 0; i < n; i++) y[i] += 2 * x[i];
}
int main(void) {
    double a[40];
    for (int i = 0; i < 40; i++) a[i] = i;
    add(30, a, a + 10);
    printf("%g\n", a[30]);
}
