/* An undeferred task with a depend clause waits for the earlier task.
   expect: none */
#include <stdio.h>

int main(void) {
    int base = 0, top = 0;
#pragma omp parallel
#pragma omp single
    {
#pragma omp task shared(base) depend(out: base)
        base = 10;
#pragma omp task shared(base, top) depend(in: base) if(0)
        top = base + 1;
        printf("%d\n", top);
    }
    return 0;
}
