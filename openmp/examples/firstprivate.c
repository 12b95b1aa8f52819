/* Each task has its own copy of the counter.
   expect: none */
#include <stdio.h>

int main(void) {
    int squares[4];
#pragma omp parallel
#pragma omp single
    {
        int number = 0;
        for (int i = 0; i < 4; i++) {
#pragma omp task shared(squares) firstprivate(i, number)
            {
                number += i;
                squares[i] = number * number;
            }
        }
#pragma omp taskwait
    }
    printf("%d\n", squares[0] + squares[1] + squares[2] + squares[3]);
    return 0;
}
