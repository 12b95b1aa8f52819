/* The same without the clause: numbers get lost.
   expect: race total */
#include <stdio.h>

int main(void) {
    int total = 1;
#pragma omp parallel
#pragma omp single
    for (int i = 1; i <= 4; i++) {
#pragma omp task shared(total) firstprivate(i)
        total = total * 2 + i;
    }
    printf("%d\n", total);
    return 0;
}
