/* Each iteration sorts a row of its own, but the function that compares counts its calls for all.
   expect: race calls */
#include <stdio.h>
#include <stdlib.h>

static int rows[4][32], calls;

static int compare(const void *one, const void *other) {
    calls++;
    return *(const int *)one - *(const int *)other;
}

int main(void) {
    for (int i = 0; i < 4; i++)
        for (int j = 0; j < 32; j++)
            rows[i][j] = (j * 7) % 32;
#pragma omp parallel for
    for (int i = 0; i < 4; i++)
        qsort(rows[i], 32, sizeof(int), compare);
    printf("%d %d\n", rows[1][0], calls > 0);
    return 0;
}
