/* Two tasks have one seed, and one place for the power.
   expect: race seed power */
#include <math.h>
#include <stdio.h>
#include <stdlib.h>

int main(void) {
    double parts[8];
    unsigned seed = 1;
    int power;
#pragma omp parallel
#pragma omp single
    for (int i = 0; i < 8; i++) {
#pragma omp task shared(parts, seed, power) firstprivate(i)
        parts[i] = frexp(rand_r(&seed) / 3.0, &power);
    }
    printf("%d\n", parts[7] >= 0);
    return 0;
}
