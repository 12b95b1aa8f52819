/* A single, then all add under a lock.
   expect: told critical */
#include <stdio.h>

int main(void) {
    int start, sum = 0;
#pragma omp parallel
    {
#pragma omp single
        start = 3;
#pragma omp critical
        sum += start;
    }
    printf("%d\n", sum > 0);
    return 0;
}
