/* A task of a task reads the variable of its maker by a pointer of its own; who waits for the maker doesn't wait for it.
   expect: race p memory */
#include <stdio.h>

static int seen[6];

int main(void) {
#pragma omp parallel
#pragma omp single
    for (int i = 0; i < 6; i++) {
#pragma omp task firstprivate(i)
        {
            int x = i, *p = &x;
#pragma omp task firstprivate(i, p)
            seen[i] = *p;
        }
#pragma omp taskwait
    }
    printf("%d\n", seen[0] >= 0);
    return 0;
}
