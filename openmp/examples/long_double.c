/* Two sections write each its own long double of 16 bytes.
   expect: none */
#include <stdio.h>

static long double x, y;

int main(void) {
#pragma omp parallel sections
    {
#pragma omp section
        x = 1.5L;
#pragma omp section
        y = 2.5L;
    }
    printf("%Lf\n", x + y);
    return 0;
}
