/* A loop, then a reduction over it.
   expect: told reductions */
#include <stdio.h>

int main(void) {
    int a[30], sum = 0;
#pragma omp parallel
    {
#pragma omp for
        for (int i = 0; i < 30; i++)
            a[i] = i;
#pragma omp for reduction(+ : sum)
        for (int i = 0; i < 30; i++)
            sum += a[i];
    }
    printf("%d\n", sum);
    return 0;
}
