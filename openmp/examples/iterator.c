/* One task names all elements by an iterator.
   expect: none */
#include <stdio.h>
int main(void) {
    int a[8] = {0}, sum = 0;
#pragma omp parallel
#pragma omp single
    {
        for (int i = 0; i < 8; i++)
#pragma omp task depend(out: a[i]) shared(a) firstprivate(i)
            a[i] = i;
#pragma omp task depend(iterator(i = 0:8), in: a[i]) shared(a, sum)
        for (int i = 0; i < 8; i++) sum += a[i];
#pragma omp taskwait
    }
    printf("%d\n", sum);
}
