/* Two tasks sort parts of an array that overlap.
   expect: race numbers memory */
#include <stdio.h>
#include <stdlib.h>

static int order(const void *a, const void *b) { return *(const int *)a - *(const int *)b; }

int main(void) {
    int numbers[6] = {5, 3, 4, 1, 2, 0};
#pragma omp parallel
#pragma omp single
    {
#pragma omp task shared(numbers)
        qsort(numbers, 4, sizeof numbers[0], order);
#pragma omp task shared(numbers)
        qsort(numbers + 3, 3, sizeof numbers[0], order);
    }
    printf("%d\n", numbers[0]);
    return 0;
}
