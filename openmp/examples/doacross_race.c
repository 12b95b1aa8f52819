/* Iterations that wait for the wrong one.
   expect: race a */
#include <stdio.h>

int main(void) {
    int a[12] = {0};
#pragma omp parallel for ordered(1)
    for (int i = 2; i < 12; i++) {
#pragma omp ordered depend(sink : i - 2)
        a[i] = a[i - 1] + 1;
#pragma omp ordered depend(source)
    }
    printf("%d\n", a[9]);
    return 0;
}
