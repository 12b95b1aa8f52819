/* Tasks that a loop's iterations make, each with an element of its own.
   expect: none */
#include <stdio.h>

int main(void) {
    int a[8];
#pragma omp parallel
#pragma omp for
    for (int i = 0; i < 8; i++) {
#pragma omp task shared(a) firstprivate(i)
        a[i] = i;
    }
    printf("%d\n", a[3]);
    return 0;
}
