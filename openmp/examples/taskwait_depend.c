/* The parent waits for the one task whose result it reads.
   expect: none */
#include <stdio.h>

int main(void) {
    int near = 0, far = 0;
#pragma omp parallel
#pragma omp single
    {
#pragma omp task shared(near) depend(out: near)
        near = 1;
#pragma omp task shared(far) depend(out: far)
        far = 2;
#pragma omp taskwait depend(in: near)
        printf("%d\n", near);
    }
    printf("%d\n", far);
    return 0;
}
