/* Tasks of a region's reduction that count in a variable of the program beside it.
   expect: race count */
#include <stdio.h>

static int count;

int main(void) {
    int sum = 0;
#pragma omp parallel reduction(task, + : sum)
#pragma omp single
    for (int i = 0; i < 4; i++) {
#pragma omp task in_reduction(+ : sum) firstprivate(i)
        {
            sum += i;
            count += 1;
        }
    }
    printf("%d %d\n", sum, count);
    return 0;
}
