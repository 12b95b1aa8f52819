/* A task of a task's task reads the first one's variable, which has ended.
   expect: race x memory */
#include <stdio.h>

static int seen[6];

static void start(int *to) {
#pragma omp task firstprivate(to)
    {
        int x = 1;
#pragma omp task shared(x) firstprivate(to)
        {
#pragma omp task shared(x) firstprivate(to)
            *to = x;
        }
    }
}

int main(void) {
#pragma omp parallel
#pragma omp single
    for (int i = 0; i < 6; i++)
        start(&seen[i]);
    printf("%d\n", seen[0] >= 0);
    return 0;
}
