/* Two tasks fill a local array, and a taskwait stands in front of its use.
   expect: none */
#include <stdio.h>

int main(void) {
#pragma omp parallel
#pragma omp single
    {
        int part[3] = {0, 0, 0};
#pragma omp task shared(part)
        part[0] = 1;
#pragma omp task shared(part)
        part[1] = 7;
#pragma omp taskwait
        printf("%d\n", part[0] + part[1]);
    }
    return 0;
}
