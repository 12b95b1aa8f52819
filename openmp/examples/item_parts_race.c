/* Items must be the same storage or apart (OpenMP 5.2, 15.9.5): one that overlaps another orders nothing.
   expect: race a */
#include <stdio.h>
int main(void) {
    int a[8] = {0}, sum = 0;
#pragma omp parallel
#pragma omp single
    {
#pragma omp task depend(out: a[0:4]) shared(a)
        for (int i = 0; i < 4; i++) a[i] = i;
#pragma omp task depend(in: a[2:4]) shared(a, sum)
        for (int i = 2; i < 6; i++) sum += a[i];
#pragma omp taskwait
    }
    printf("%d\n", sum);
}
