/* A taskloop with a reduction, whose tasks write an element each beside it.
   expect: told reductions */
#include <stdio.h>

int main(void) {
    double sum = 0, squares[16];
#pragma omp parallel
#pragma omp single
#pragma omp taskloop reduction(+ : sum) num_tasks(8) shared(squares)
    for (int i = 0; i < 16; i++) {
        squares[i] = i * i;
        sum += squares[i];
    }
    printf("%g %g\n", sum, squares[15]);
    return 0;
}
