/* A taskloop in which the last value isn't private.
   expect: race last */
#include <stdio.h>

int main(void) {
    int a[16], base = 3, last = 0;
#pragma omp parallel
#pragma omp single
#pragma omp taskloop firstprivate(base) shared(last) num_tasks(4)
    for (int i = 0; i < 16; i++) {
        a[i] = base + i;
        last = i;
    }
    printf("%d %d\n", a[3], last);
    return 0;
}
