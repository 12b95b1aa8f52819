/* A task ends in front of its child, which keeps to what outlives both.
   expect: none */
#include <stdio.h>
#include <stdlib.h>

static void start(int *box) {
#pragma omp task firstprivate(box)
    {
        box[0] = 1;
#pragma omp task firstprivate(box)
        box[1] = 2;
    }
}

int main(void) {
    int *box = calloc(2, sizeof *box);
#pragma omp parallel
#pragma omp single
    start(box);
    printf("%d\n", box[0] + box[1]);
    free(box);
    return 0;
}
