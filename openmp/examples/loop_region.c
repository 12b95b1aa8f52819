/* A region in each iteration of a loop: its threads read the iteration's own number.
   expect: none */
#include <omp.h>
#include <stdio.h>

static int table[4][4];

int main(void) {
    omp_set_max_active_levels(2);
#pragma omp parallel for num_threads(2)
    for (int i = 0; i < 4; i++) {
#pragma omp parallel for num_threads(2)
        for (int j = 0; j < 4; j++)
            table[i][j] = i * j;
    }
    printf("%d\n", table[3][3]);
    return 0;
}
