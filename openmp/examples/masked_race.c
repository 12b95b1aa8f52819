/* No barrier comes with `master`: the others may read before.
   expect: race x */
#include <stdio.h>

int main(void) {
    int x = 0, sum = 0;
#pragma omp parallel
    {
#pragma omp master
        x = 5;
        int seen = x;
#pragma omp critical
        sum += seen;
    }
    printf("%d\n", sum >= 0);
    return 0;
}
