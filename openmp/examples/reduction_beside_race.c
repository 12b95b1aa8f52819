/* Tasks of a reduction that count in a variable which isn't part of it.
   expect: race count */
#include <stdio.h>

int main(void) {
    int sum = 0, count = 0;
#pragma omp parallel
#pragma omp single
#pragma omp taskgroup task_reduction(+ : sum)
    for (int i = 0; i < 8; i++) {
#pragma omp task in_reduction(+ : sum) firstprivate(i) shared(count)
        {
            sum += i;
            count++;
        }
    }
    printf("%d %d\n", sum, count);
    return 0;
}
