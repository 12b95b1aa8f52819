/* The child of a critical section is deferred: it may start when the section is left.
   expect: race x */
#include <stdio.h>

int main(void) {
    int x = 0;
#pragma omp parallel
#pragma omp single
    for (int i = 0; i < 3; i++) {
#pragma omp task shared(x)
        {
#pragma omp critical
            {
#pragma omp task shared(x)
                x++;
            }
        }
    }
    printf("%d\n", x);
    return 0;
}
