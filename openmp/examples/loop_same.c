/* Two static loops of one shape without a barrier: the same thread has the same iterations.
   expect: none */
#include <stdio.h>

int main(void) {
    int a[20], b[20];
#pragma omp parallel
    {
#pragma omp for schedule(static) nowait
        for (int i = 0; i < 20; i++)
            a[i] = i;
#pragma omp for schedule(static) nowait
        for (int i = 0; i < 20; i++)
            b[i] = a[i] * 2;
    }
    printf("%d\n", b[3]);
    return 0;
}
