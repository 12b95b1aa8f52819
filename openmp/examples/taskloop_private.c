/* A taskloop with copies of its own and a last value.
   expect: none */
#include <stdio.h>

int main(void) {
    int a[16], base = 3, last = 0;
#pragma omp parallel
#pragma omp single
#pragma omp taskloop firstprivate(base) lastprivate(last) num_tasks(4)
    for (int i = 0; i < 16; i++) {
        a[i] = base + i;
        last = i;
    }
    printf("%d %d\n", a[3], last);
    return 0;
}
