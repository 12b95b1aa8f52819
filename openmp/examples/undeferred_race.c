/* The same task deferred: the parent doesn't wait for it.
   expect: race count */
#include <stdio.h>

int main(void) {
    int count = 0;
#pragma omp parallel
#pragma omp single
    {
#pragma omp task shared(count)
        count = 3;
        count++;
        printf("%d\n", count);
    }
    return 0;
}
