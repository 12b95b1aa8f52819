/* A number that is counted atomically is read atomically in front.
   expect: alike */
#include <stdio.h>

static int count;

int main(void) {
#pragma omp parallel
#pragma omp single
    for (int i = 0; i < 4; i++)
#pragma omp task
        {
            int seen;
#pragma omp atomic read
            seen = count;
            if (seen < 100)
#pragma omp atomic
                count++;
        }
    printf("%d\n", count);
    return 0;
}
