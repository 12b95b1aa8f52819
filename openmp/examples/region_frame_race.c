/* A region's variable, which a task reads: the task may run at the barrier behind the region's block.
   expect: race x memory */
#include <stdio.h>

static int seen;

int main(void) {
#pragma omp parallel
    {
        int x = 1;
#pragma omp task shared(x)
        {
#pragma omp atomic
            seen += x;
        }
    }
    printf("%d\n", seen != 0);
    return 0;
}
