/* Each thread adds to its own element, and past the barrier to those of the iterations that it takes.
   expect: number */
#include <omp.h>
#include <stdio.h>

static int parts[64];

int main(void) {
    int total = 0;
#pragma omp parallel
    {
        int me = omp_get_thread_num();
        for (int i = 0; i < 4; i++)
            parts[me] += i;
#pragma omp barrier
#pragma omp for
        for (int i = 0; i < 64; i++)
            parts[i] += 1;
#pragma omp single
        for (int i = 0; i < omp_get_num_threads(); i++)
            total += parts[i];
    }
    printf("%d\n", total > 0);
    return 0;
}
