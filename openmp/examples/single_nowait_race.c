/* Two singles without a barrier: two threads may do them.
   expect: race x */
#include <stdio.h>

int main(void) {
    int x = 0;
#pragma omp parallel
    {
#pragma omp single nowait
        x = 1;
#pragma omp single
        x += 2;
    }
    printf("%d\n", x);
    return 0;
}
