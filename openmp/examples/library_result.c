/* What functions of the library give by pointers is each task's own.
   expect: none */
#include <math.h>
#include <stdio.h>
#include <stdlib.h>

int main(void) {
    double parts[8];
    int powers[8];
#pragma omp parallel
#pragma omp single
    for (int i = 0; i < 8; i++) {
#pragma omp task shared(parts, powers) firstprivate(i)
        {
            unsigned seed = (unsigned)i;
            double whole;
            parts[i] = modf(rand_r(&seed) / 3.0, &whole);
            parts[i] += frexp(whole, &powers[i]);
        }
    }
    printf("%d\n", powers[7] >= 0);
    return 0;
}
