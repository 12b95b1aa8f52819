/* The counter is added to by atomic operations, and read without one.
   expect: race count */
#include <stdio.h>

int main(void) {
    int count = 0;
#pragma omp parallel
#pragma omp single
    for (int i = 0; i < 3; i++) {
#pragma omp task shared(count)
        {
#pragma omp atomic
            count++;
            if (count > 5)
                printf("many\n");
        }
    }
    printf("%d\n", count);
    return 0;
}
