/* No iteration of a simd loop touches what another one writes; each has its own factor, and they add up what a reduction
   puts together.
   expect: none */
#include <stdio.h>

static double halve(const double *x) { return *x / 2; }

int main(void) {
    double x[40], y[41], factor, sum = 0, last = 0;
    for (int i = 0; i < 40; i++)
        x[i] = y[i] = i;
#pragma omp simd private(factor) reduction(+ : sum) lastprivate(last)
    for (int i = 0; i < 40; i++) {
        factor = x[i] + 1;
        x[i] += y[i] + halve(&factor);
        sum += x[i];
        last = x[i];
    }
    printf("%.1f %.1f\n", sum, last);
    return 0;
}
