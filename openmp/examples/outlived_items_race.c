/* The task that makes two others has ended when they start; no item of the second one names what both write.
   expect: race x */
#include <stdio.h>

static int x, y;

int main(void) {
#pragma omp parallel
#pragma omp single
    {
#pragma omp task
        {
#pragma omp task depend(out: x)
            x = 1;
#pragma omp task depend(inout: y)
            x += 2;
        }
    }
    printf("%d\n", x);
    return 0;
}
