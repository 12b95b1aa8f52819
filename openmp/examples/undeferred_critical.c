/* An undeferred child inside a critical section.
   expect: told critical */
#include <stdio.h>

int main(void) {
    int x = 0;
#pragma omp parallel
#pragma omp single
    for (int i = 0; i < 3; i++) {
#pragma omp task shared(x)
        {
#pragma omp critical
            {
#pragma omp task if (0) shared(x)
                x++;
            }
        }
    }
    printf("%d\n", x);
    return 0;
}
