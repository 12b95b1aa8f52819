/* The first thread alone writes, and a barrier is in front of the others' reads.
   expect: told critical */
#include <stdio.h>

int main(void) {
    int x = 0, sum = 0;
#pragma omp parallel
    {
#pragma omp master
        x = 5;
#pragma omp barrier
#pragma omp critical
        sum += x;
    }
    printf("%d\n", sum > 0);
    return 0;
}
