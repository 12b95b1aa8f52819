/* An untied task's children write one variable.
   expect: race x */
#include <stdio.h>

int main(void) {
    int x = 0;
#pragma omp parallel
#pragma omp single
#pragma omp task untied shared(x)
    {
#pragma omp task untied shared(x)
        x++;
#pragma omp task untied shared(x)
        x++;
#pragma omp taskwait
    }
    printf("%d\n", x);
    return 0;
}
