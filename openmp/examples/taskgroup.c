/* The end of a group waits for grandchildren too.
   expect: none */
#include <stdio.h>

int main(void) {
    int deep = 0;
#pragma omp parallel
#pragma omp single
    {
#pragma omp taskgroup
        {
#pragma omp task shared(deep)
            {
#pragma omp task shared(deep)
                deep = 5;
            }
        }
        printf("%d\n", deep);
    }
    return 0;
}
