/* Each iteration of a simd loop reads what the one in front of it writes.
   expect: race x */
#include <stdio.h>

int main(void) {
    double x[41], y[40];
    for (int i = 0; i < 40; i++)
        x[i] = y[i] = i;
#pragma omp simd
    for (int i = 0; i < 40; i++)
        x[i + 1] = x[i] + y[i];
    printf("%.1f\n", x[40]);
    return 0;
}
