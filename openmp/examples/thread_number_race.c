/* Each thread counts in an element of its own, but for the total.
   expect: race total */
#include <omp.h>
#include <stdio.h>

int main(void) {
    int counts[64] = {0}, total = 0;
#pragma omp parallel num_threads(4)
    {
        counts[omp_get_thread_num()]++;
        total++;
    }
    printf("%d\n", counts[0] + total >= 0);
    return 0;
}
