/* A task of each iteration: its clause orders those of one thread alone, and each iteration may be another thread's.
   expect: race last */
#include <stdio.h>

static int last;

int main(void) {
#pragma omp parallel for
    for (int i = 0; i < 8; i++) {
#pragma omp task depend(inout: last)
        last = i;
    }
    printf("%d\n", last);
    return 0;
}
