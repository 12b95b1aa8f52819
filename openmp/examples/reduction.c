/* A sum over tasks by a reduction: each thread has a copy of its own.
   expect: told sum */
#include <stdio.h>

int main(void) {
    int sum = 0;
#pragma omp parallel
#pragma omp single
    {
#pragma omp taskgroup task_reduction(+: sum)
        for (int i = 1; i <= 4; i++) {
#pragma omp task in_reduction(+: sum) firstprivate(i)
            sum += i;
        }
        printf("%d\n", sum);
    }
    return 0;
}
