/* A taskwait waits for children alone: the grandchild may still be under way.
   expect: race deep */
#include <stdio.h>

int main(void) {
    int deep = 0;
#pragma omp parallel
#pragma omp single
    {
        {
#pragma omp task shared(deep)
            {
#pragma omp task shared(deep)
                deep = 5;
            }
        }
#pragma omp taskwait
        printf("%d\n", deep);
    }
    return 0;
}
