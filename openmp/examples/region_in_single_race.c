/* A region inside a single: its end doesn't wait for the outer team's tasks.
   expect: race x */
#include <stdio.h>

int main(void) {
    int x = 0, y[2];
#pragma omp parallel
#pragma omp single
    {
#pragma omp task shared(x)
        x = 1;
#pragma omp parallel for num_threads(2)
        for (int i = 0; i < 2; i++)
            y[i] = i;
        x += y[0] + y[1];
    }
    printf("%d\n", x);
    return 0;
}
