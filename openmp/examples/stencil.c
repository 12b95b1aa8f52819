/* Each step of the stencil waits for the three cells of the step in front of it.
   expect: none */
#include <stdio.h>

enum { CELLS = 5, STEPS = 2 };

int main(void) {
    int heat[STEPS + 1][CELLS] = {{0, 0, 90, 0, 0}};
#pragma omp parallel
#pragma omp single
    for (int t = 0; t < STEPS; t++)
        for (int x = 1; x < CELLS - 1; x++) {
#pragma omp task shared(heat) firstprivate(t, x) \
    depend(in: heat[t][x - 1], heat[t][x], heat[t][x + 1]) depend(out: heat[t + 1][x])
            heat[t + 1][x] = (heat[t][x - 1] + heat[t][x] + heat[t][x + 1]) / 3;
        }
    printf("%d %d %d\n", heat[STEPS][1], heat[STEPS][2], heat[STEPS][3]);
    return 0;
}
