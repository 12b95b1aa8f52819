/* Each task adds to what the one in front of it left.
   expect: none */
#include <stdio.h>

int main(void) {
    int total = 1;
#pragma omp parallel
#pragma omp single
    for (int i = 1; i <= 4; i++) {
#pragma omp task shared(total) firstprivate(i) depend(inout: total)
        total = total * 2 + i;
    }
    printf("%d\n", total);
    return 0;
}
