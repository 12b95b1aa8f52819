/* The taskwait in front of the use of a local array is forgotten.
   expect: race part */
#include <stdio.h>

int main(void) {
#pragma omp parallel
#pragma omp single
    {
        int part[3] = {0, 0, 0};
#pragma omp task shared(part)
        part[0] = 1;
#pragma omp task shared(part)
        part[1] = 7;
        printf("%d\n", part[0] + part[1]);
#pragma omp taskwait
    }
    return 0;
}
