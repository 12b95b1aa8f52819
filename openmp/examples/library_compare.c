/* As library_compare_race.c, without the count.
   expect: none */
#include <stdio.h>
#include <stdlib.h>

static int rows[4][32];

static int compare(const void *one, const void *other) { return *(const int *)one - *(const int *)other; }

int main(void) {
    for (int i = 0; i < 4; i++)
        for (int j = 0; j < 32; j++)
            rows[i][j] = (j * 7) % 32;
#pragma omp parallel for
    for (int i = 0; i < 4; i++)
        qsort(rows[i], 32, sizeof(int), compare);
    printf("%d %d\n", rows[1][0], rows[2][31]);
    return 0;
}
