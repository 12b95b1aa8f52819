/* A reduction over tasks of a region.
   expect: told reductions */
#include <stdio.h>

int main(void) {
    int sum = 0;
#pragma omp parallel reduction(task, + : sum)
#pragma omp single
    for (int i = 0; i < 4; i++) {
#pragma omp task in_reduction(+ : sum) firstprivate(i)
        sum += i;
    }
    printf("%d\n", sum);
    return 0;
}
