/* Undeferred alone: it waits for no sibling.
   expect: race base */
#include <stdio.h>

int main(void) {
    int base = 0, top = 0;
#pragma omp parallel
#pragma omp single
    {
#pragma omp task shared(base) depend(out: base)
        base = 10;
#pragma omp task shared(base, top) if(0)
        top = base + 1;
        printf("%d\n", top);
    }
    return 0;
}
