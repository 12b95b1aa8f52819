/* Two tasks take their item from an object, which says that they write.
   expect: none */
#include <omp.h>
#include <stdio.h>
int main(void) {
    int x = 0;
    omp_depend_t d;
#pragma omp depobj(d) depend(inout: x)
#pragma omp parallel
#pragma omp single
    {
#pragma omp task depend(depobj: d) shared(x)
        x = 1;
#pragma omp task depend(depobj: d) shared(x)
        x = x * 2 + 1;
#pragma omp taskwait
    }
#pragma omp depobj(d) destroy
    printf("%d\n", x);
}
