/* The parent waits for the other task.
   expect: race near */
#include <stdio.h>

int main(void) {
    int near = 0, far = 0;
#pragma omp parallel
#pragma omp single
    {
#pragma omp task shared(near) depend(out: near)
        near = 1;
#pragma omp task shared(far) depend(out: far)
        far = 2;
#pragma omp taskwait depend(in: far)
        printf("%d\n", near);
    }
    printf("%d\n", far);
    return 0;
}
