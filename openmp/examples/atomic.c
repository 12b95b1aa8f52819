/* Atomic additions: the notation has no word for them, and the answer says so.
   expect: told count */
#include <stdio.h>

int main(void) {
    int count = 0;
#pragma omp parallel
#pragma omp single
    for (int i = 0; i < 3; i++) {
#pragma omp task shared(count)
        {
#pragma omp atomic
            count++;
        }
    }
    printf("%d\n", count);
    return 0;
}
