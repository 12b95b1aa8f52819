/* Two singles with a barrier in between: what the first one's tasks write is there for the second's.
   expect: none */
#include <stdio.h>

int main(void) {
    int first[2] = {0, 0}, second[2] = {0, 0};
#pragma omp parallel
    {
#pragma omp single
        for (int i = 0; i < 2; i++) {
#pragma omp task shared(first) firstprivate(i)
            first[i] = i + 1;
        }
#pragma omp single
        for (int i = 0; i < 2; i++) {
#pragma omp task shared(first, second) firstprivate(i)
            second[i] = first[1 - i] * 10;
        }
    }
    printf("%d %d\n", second[0], second[1]);
    return 0;
}
