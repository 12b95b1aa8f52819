/* The second loop is dynamic: another thread may have the same iteration.
   expect: race a */
#include <stdio.h>

int main(void) {
    int a[20], b[20];
    for (int i = 0; i < 20; i++)
        a[i] = 0;
#pragma omp parallel
    {
#pragma omp for schedule(static) nowait
        for (int i = 0; i < 20; i++)
            a[i] = i;
#pragma omp for schedule(dynamic)
        for (int i = 0; i < 20; i++)
            b[i] = a[i] * 2;
    }
    printf("%d\n", b[3]);
    return 0;
}
