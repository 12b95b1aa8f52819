/* The program wants one thread, by a function, and then by a clause that doesn't hold.
   expect: none */
#include <omp.h>
#include <stdio.h>

int main(int count, char **words) {
    int x = 0;
    (void)words;
    omp_set_num_threads(1);
#pragma omp parallel
    x++;
#pragma omp parallel
    x++;
    omp_set_num_threads(2);
#pragma omp parallel if (count > 5)
    x++;
#pragma omp parallel for if (count > 5)
    for (int i = 0; i < 10; i++)
        x += i;
    printf("%d\n", x);
    return 0;
}
