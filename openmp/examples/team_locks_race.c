/* Each thread counts under two locks in turn: another one may hold the other lock.
   expect: race count */
#include <stdio.h>

static int count;

int main(void) {
#pragma omp parallel
    {
#pragma omp critical(one)
        count++;
#pragma omp critical(other)
        count++;
    }
    printf("%d\n", count > 0);
    return 0;
}
