/* A function waits for the task that writes its variable.
   expect: none */
#include <stdio.h>

static int work(void) {
    int x = 0;
#pragma omp task shared(x)
    x = 1;
#pragma omp taskwait
    return x;
}

int main(void) {
    int sum = 0;
#pragma omp parallel
#pragma omp single
    for (int i = 0; i < 3; i++)
        sum += work();
    printf("%d\n", sum);
    return 0;
}
