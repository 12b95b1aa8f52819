/* The last thread writes what the others may still read: a barrier lacks in front of it.
   expect: race flag */
#include <stdio.h>

int main(void) {
    int flag = 0, sum = 0;
#pragma omp parallel
    {
#pragma omp critical
        sum += flag;
#pragma omp single
        flag = 1;
    }
    printf("%d\n", sum);
    return 0;
}
