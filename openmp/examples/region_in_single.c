/* A region inside a single: its end is no end of the outer team's tasks, and a taskwait comes in front of the use.
   expect: none */
#include <stdio.h>

int main(void) {
    int x = 0, y[2];
#pragma omp parallel
#pragma omp single
    {
#pragma omp task shared(x)
        x = 1;
#pragma omp parallel for num_threads(2)
        for (int i = 0; i < 2; i++)
            y[i] = i;
#pragma omp taskwait
        x += y[0] + y[1];
    }
    printf("%d\n", x);
    return 0;
}
