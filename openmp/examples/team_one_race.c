/* The clause holds.
   expect: race x */
#include <omp.h>
#include <stdio.h>

int main(int count, char **words) {
    int x = 0;
    (void)words;
    omp_set_num_threads(1);
#pragma omp parallel
    x++;
    omp_set_num_threads(2);
#pragma omp parallel if (count < 5)
    x++;
    printf("%d\n", x);
    return 0;
}
