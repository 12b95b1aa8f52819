/* A task has the address of an argument, which ends with the function.
   expect: race n memory */
#include <stdio.h>

static int total;

static void work(int n) {
#pragma omp task shared(n)
    {
#pragma omp atomic
        total += n;
    }
}

int main(void) {
#pragma omp parallel
#pragma omp single
    for (int i = 0; i < 3; i++)
        work(i);
    printf("%d\n", total >= 0);
    return 0;
}
