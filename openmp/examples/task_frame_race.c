/* A task's variable, which its child reads: the task may have ended by then.
   expect: race x memory */
#include <stdio.h>

static int seen[6];

static void start(int *to) {
#pragma omp task firstprivate(to)
    {
        int x = 1;
#pragma omp task shared(x) firstprivate(to)
        *to = x;
    }
}

int main(void) {
#pragma omp parallel
#pragma omp single
    for (int i = 0; i < 6; i++)
        start(&seen[i]);
    printf("%d\n", seen[0] >= 0);
    return 0;
}
