/* Of an array each part that a task reads is named as another task names it.
   expect: none */
#include <stdio.h>
int main(void) {
    int a[8] = {0}, sum = 0;
#pragma omp parallel
#pragma omp single
    {
#pragma omp task depend(out: a[0:4]) shared(a)
        for (int i = 0; i < 4; i++) a[i] = i;
#pragma omp task depend(in: a[0:4], a[4:2]) shared(a, sum)
        for (int i = 2; i < 6; i++) sum += a[i];
#pragma omp taskwait
    }
    printf("%d\n", sum);
}
