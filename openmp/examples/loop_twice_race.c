/* The first loop has no barrier: the second one reads what it may not have written yet.
   expect: race a */
#include <stdio.h>

int main(void) {
    int a[20], b[20];
    for (int i = 0; i < 20; i++)
        a[i] = 0;
#pragma omp parallel
    {
#pragma omp for nowait
        for (int i = 0; i < 20; i++)
            a[i] = i;
#pragma omp for
        for (int i = 0; i < 20; i++)
            b[i] = a[19 - i];
    }
    printf("%d\n", b[3]);
    return 0;
}
