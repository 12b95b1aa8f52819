/* The reduction's variable is read before its loop's barrier.
   expect: race sum */
#include <stdio.h>

int main(void) {
    int a[30], sum = 0, seen = 0;
    for (int i = 0; i < 30; i++)
        a[i] = i;
#pragma omp parallel
    {
#pragma omp for reduction(+ : sum) nowait
        for (int i = 0; i < 30; i++)
            sum += a[i];
#pragma omp single
        seen = sum;
    }
    printf("%d %d\n", sum, seen);
    return 0;
}
