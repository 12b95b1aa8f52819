/* A thread sets the variable while others may have added their parts already: with many threads, too, where the runtime
   has one of them add all.
   expect: race total */
#include <stdio.h>

int main(void) {
    int total;
#pragma omp parallel
    {
#pragma omp master
        total = 0;
#pragma omp for reduction(+ : total)
        for (int i = 0; i < 40; i++)
            total += i;
    }
    printf("%d\n", total >= 0);
    return 0;
}
