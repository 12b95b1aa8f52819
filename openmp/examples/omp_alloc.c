/* What OpenMP's allocators give has a beginning and an end: what one task had another one may get.
   expect: none */
#include <omp.h>
#include <stdio.h>

int main(void) {
    int sums[12], room[4];
#pragma omp parallel
#pragma omp single
    for (int i = 0; i < 12; i++) {
#pragma omp task shared(sums) firstprivate(i)
        {
            int *own = omp_alloc(4 * sizeof *own, omp_default_mem_alloc);
            for (int k = 0; k < 4; k++)
                own[k] = i;
            sums[i] = own[0] + own[3];
            omp_free(own, omp_default_mem_alloc);
        }
    }
#pragma omp parallel for private(room) allocate(omp_default_mem_alloc : room)
    for (int i = 0; i < 12; i++) {
        for (int k = 0; k < 4; k++)
            room[k] = i;
        sums[i] += room[1];
    }
    printf("%d\n", sums[11]);
    return 0;
}
