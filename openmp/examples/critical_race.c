/* Two critical sections of different names keep nothing apart.
   expect: race count */
#include <stdio.h>

int main(void) {
    int count = 0;
#pragma omp parallel
#pragma omp single
    for (int i = 0; i < 3; i++) {
#pragma omp task shared(count)
        {
#pragma omp critical(first)
            count++;
#pragma omp critical(second)
            count++;
        }
    }
    printf("%d\n", count);
    return 0;
}
