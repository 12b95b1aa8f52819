/* Library functions write into buffers of their own, and a taskwait comes in front of the reads.
   expect: none */
#include <stdio.h>
#include <stdlib.h>
#include <string.h>

static int order(const void *a, const void *b) { return *(const int *)a - *(const int *)b; }

int main(void) {
    char text[16] = "", more[16] = "";
    int numbers[5] = {5, 3, 4, 1, 2};
#pragma omp parallel
#pragma omp single
    {
#pragma omp task shared(text)
        strcpy(text, "one");
#pragma omp task shared(more)
        sprintf(more, "%d", 12);
#pragma omp task shared(numbers)
        qsort(numbers, 5, sizeof numbers[0], order);
#pragma omp taskwait
        printf("%s %s %d\n", text, more, numbers[0]);
    }
    return 0;
}
