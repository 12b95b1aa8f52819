/* A task reads a variable of a function that may have returned.
   expect: race x memory */
#include <stdio.h>

static void work(int *out) {
    int x = 0;
#pragma omp task shared(x) firstprivate(out)
    *out = x + 1;
}

int main(void) {
    int done[3] = {0};
#pragma omp parallel
#pragma omp single
    for (int i = 0; i < 3; i++)
        work(&done[i]);
    printf("%d\n", done[0]);
    return 0;
}
