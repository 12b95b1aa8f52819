/* Each task writes a quarter of an array in an order in which no two elements stand behind each other.
   expect: none */
#include <stdio.h>

static int a[4800];

int main(void) {
#pragma omp parallel
#pragma omp single
    for (int t = 0; t < 4; t++)
#pragma omp task firstprivate(t)
        for (int i = 0; i < 1200; i++)
            a[1200 * t + i * 7 % 1200] = i;
    printf("%d\n", a[17]);
    return 0;
}
