/* A second task reads what a grandchild writes: the grandchild isn't its sibling.
   expect: race box */
#include <stdio.h>
#include <stdlib.h>

static void start(int *box) {
#pragma omp task firstprivate(box)
    {
        box[0] = 1;
#pragma omp task firstprivate(box)
        box[1] = 2;
    }
#pragma omp task firstprivate(box)
    {
        box[1] += 40;
    }
}

int main(void) {
    int *box = calloc(2, sizeof *box);
#pragma omp parallel
#pragma omp single
    start(box);
    printf("%d\n", box[0] + box[1]);
    free(box);
    return 0;
}
