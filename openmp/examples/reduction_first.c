/* As reduction_first_race.c, with a barrier behind the first store.
   expect: told reductions */
#include <stdio.h>

int main(void) {
    int total;
#pragma omp parallel
    {
#pragma omp master
        total = 0;
#pragma omp barrier
#pragma omp for reduction(+ : total)
        for (int i = 0; i < 40; i++)
            total += i;
    }
    printf("%d\n", total);
    return 0;
}
