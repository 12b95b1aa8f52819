/* A task of a reduction makes others that are part of it too.
   expect: told reductions */
#include <stdio.h>

static int leaves[8];

int main(void) {
    long sum = 0;
#pragma omp parallel
#pragma omp single
#pragma omp taskgroup task_reduction(+ : sum)
    for (int i = 0; i < 4; i++) {
#pragma omp task in_reduction(+ : sum) firstprivate(i)
        {
            sum += i;
            for (int k = 0; k < 2; k++) {
#pragma omp task in_reduction(+ : sum) firstprivate(i, k)
                {
                    sum += 10 * k;
                    leaves[2 * i + k] = k;
                }
            }
        }
    }
    printf("%ld %d\n", sum, leaves[7]);
    return 0;
}
