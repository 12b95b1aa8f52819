/* As simd_ordered.c, but what the blocks add up is read outside of them.
   expect: race sum */
#include <stdio.h>

int main(void) {
    int x[40], y[40], sum = 0;
    for (int i = 0; i < 40; i++)
        x[i] = i;
#pragma omp simd
    for (int i = 0; i < 40; i++) {
        y[i] = sum;
#pragma omp ordered simd
        { sum += x[i]; }
    }
    printf("%d %d\n", sum, y[3]);
    return 0;
}
