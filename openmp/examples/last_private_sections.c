/* What the last section writes one thread alone gives on, and behind a barrier.
   expect: told reductions */
#include <stdio.h>

int main(void) {
    int last = 0, sum = 0;
#pragma omp parallel
    {
#pragma omp sections lastprivate(last) reduction(+ : sum)
        {
#pragma omp section
            last = sum = 1;
#pragma omp section
            last = sum = 2;
        }
    }
    printf("%d %d\n", last, sum);
    return 0;
}
