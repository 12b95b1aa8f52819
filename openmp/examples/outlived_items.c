/* The task that makes two others has ended when they start; the second one waits for the first all the same.
   expect: none */
#include <stdio.h>

static int x;

int main(void) {
#pragma omp parallel
#pragma omp single
    {
#pragma omp task
        {
#pragma omp task depend(out: x)
            x = 1;
#pragma omp task depend(inout: x)
            x += 2;
        }
    }
    printf("%d\n", x);
    return 0;
}
