/* The flag is set too early.
   expect: race data */
#include <stdio.h>

int main(void) {
    int is_ready = 0, data = 0, got = 0;
#pragma omp parallel sections num_threads(2)
    {
#pragma omp section
        {
#pragma omp critical
            is_ready = 1;
            data = 42;
        }
#pragma omp section
        {
            for (int seen = 0; !seen;) {
#pragma omp critical
                seen = is_ready;
            }
            got = data;
        }
    }
    printf("%d\n", got);
    return 0;
}
