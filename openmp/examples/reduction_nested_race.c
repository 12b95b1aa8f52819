/* As reduction_nested.c, but the tasks within write where their maker does.
   expect: race leaves */
#include <stdio.h>

static int leaves[4];

int main(void) {
    long sum = 0;
#pragma omp parallel
#pragma omp single
#pragma omp taskgroup task_reduction(+ : sum)
    for (int i = 0; i < 4; i++) {
#pragma omp task in_reduction(+ : sum) firstprivate(i)
        {
            sum += i;
            for (int k = 0; k < 2; k++) {
#pragma omp task in_reduction(+ : sum) firstprivate(i, k)
                {
                    sum += 10 * k;
                    leaves[i] += k;
                }
            }
        }
    }
    printf("%ld %d\n", sum, leaves[3]);
    return 0;
}
