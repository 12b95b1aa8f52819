/* A task with `if(0)` ends before its parent goes on.
   expect: none */
#include <stdio.h>

int main(void) {
    int count = 0;
#pragma omp parallel
#pragma omp single
    {
#pragma omp task shared(count) if(0)
        count = 3;
        count++;
        printf("%d\n", count);
    }
    return 0;
}
