/* A task of a group adds to the variable without being part of its reduction.
   expect: race sum */
#include <stdio.h>

int main(void) {
    int sum = 0, seen = 0;
#pragma omp parallel
#pragma omp single
    {
#pragma omp task shared(sum, seen)
        seen = sum;
#pragma omp taskgroup task_reduction(+ : sum)
        for (int i = 0; i < 4; i++) {
#pragma omp task in_reduction(+ : sum) firstprivate(i)
            sum += i;
        }
    }
    printf("%d\n", sum + seen);
    return 0;
}
