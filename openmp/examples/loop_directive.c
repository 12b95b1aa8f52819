/* The iterations of `omp loop` are shared out, as those of `omp for` are.
   expect: none */
#include <stdio.h>

int main(void) {
    int a[40];
#pragma omp parallel
    {
#pragma omp loop bind(parallel)
        for (int i = 0; i < 40; i++)
            a[i] = i;
#pragma omp loop
        for (int i = 0; i < 40; i++)
            a[39 - i] += 1;
    }
    printf("%d\n", a[39]);
    return 0;
}
