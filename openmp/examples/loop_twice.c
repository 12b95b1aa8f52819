/* Two loops in one region, with the first one's barrier in between.
   expect: none */
#include <stdio.h>

int main(void) {
    int a[20], b[20];
#pragma omp parallel
    {
#pragma omp for
        for (int i = 0; i < 20; i++)
            a[i] = i;
#pragma omp for
        for (int i = 0; i < 20; i++)
            b[i] = a[19 - i];
    }
    printf("%d\n", b[3]);
    return 0;
}
