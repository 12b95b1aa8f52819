/* The iterations of a simd loop add to one variable, which no reduction names.
   expect: race sum */
#include <stdio.h>

static int x[4][40];

int main(void) {
#pragma omp parallel for
    for (int i = 0; i < 4; i++) {
        int sum = 0;
#pragma omp simd
        for (int j = 0; j < 40; j++)
            sum += x[i][j];
        x[i][0] = sum;
    }
    printf("%d\n", x[0][0]);
    return 0;
}
