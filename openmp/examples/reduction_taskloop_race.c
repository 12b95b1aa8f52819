/* A taskloop with a reduction, whose iterations write their neighbours' elements.
   expect: race squares */
#include <stdio.h>

int main(void) {
    double sum = 0, squares[17] = {0};
#pragma omp parallel
#pragma omp single
#pragma omp taskloop reduction(+ : sum) num_tasks(8) shared(squares)
    for (int i = 0; i < 16; i++) {
        squares[i + 1] = squares[i] + i;
        sum += squares[i];
    }
    printf("%g %g\n", sum, squares[16]);
    return 0;
}
