/* As simd_safelen.c, but an iteration reads what the one three in front of it writes.
   expect: race x */
#include <stdio.h>

static int x[40];

int main(void) {
#pragma omp parallel
#pragma omp single
#pragma omp task
    {
#pragma omp simd safelen(4)
        for (int i = 4; i < 40; i++)
            x[i] = x[i - 3] + 1;
    }
    printf("%d\n", x[39]);
    return 0;
}
