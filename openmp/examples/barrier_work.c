/* Each thread writes its own element, and reads another's behind the barrier.
   expect: number */
#include <omp.h>
#include <stdio.h>

int main(void) {
    int a[64] = {0}, sum = 0;
#pragma omp parallel
    {
        int me = omp_get_thread_num();
        a[me] = me;
#pragma omp barrier
#pragma omp critical
        sum += a[(me + 1) % omp_get_num_threads()];
    }
    printf("%d\n", sum >= 0);
    return 0;
}
