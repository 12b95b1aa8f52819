/* Each thread counts in an element of its own.
   expect: number */
#include <omp.h>
#include <stdio.h>

int main(void) {
    int counts[64] = {0};
#pragma omp parallel for schedule(dynamic)
    for (int i = 0; i < 20; i++)
        counts[omp_get_thread_num()]++;
    printf("%d\n", counts[0] >= 0);
    return 0;
}
