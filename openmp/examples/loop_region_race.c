/* As loop_region.c, but the regions of all iterations write one row; also where one thread meets them all.
   expect: race table */
#include <omp.h>
#include <stdio.h>

static int table[4];

int main(void) {
    omp_set_max_active_levels(2);
#pragma omp parallel for
    for (int i = 0; i < 4; i++) {
#pragma omp parallel for num_threads(2)
        for (int j = 0; j < 4; j++)
            table[j] = i * j;
    }
    printf("%d\n", table[3]);
    return 0;
}
