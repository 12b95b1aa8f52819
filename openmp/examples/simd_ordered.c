/* The ordered blocks of a simd loop come in the order of its iterations.
   expect: none */
#include <stdio.h>

int main(void) {
    int x[40], sum = 0;
#pragma omp simd
    for (int i = 0; i < 40; i++) {
        x[i] = i;
#pragma omp ordered simd
        { sum += x[i]; }
    }
    printf("%d\n", sum);
    return 0;
}
