/* A task has a variable of its maker's among what it shares, and doesn't touch it: another one has that memory by then.
   expect: none */
#include <stdio.h>

static int out[6];

static void start(int *to, int deep) {
#pragma omp task firstprivate(to, deep)
    {
        int x = deep;
#pragma omp task shared(x) firstprivate(to, deep)
        {
            int own[20];
            for (int i = 0; i < 20; i++)
                own[i] = i;
            *to = deep < 0 ? x : own[3];
#pragma omp task shared(own) firstprivate(to)
            *to += own[4];
#pragma omp taskwait
        }
    }
}

int main(void) {
#pragma omp parallel
#pragma omp single
    for (int i = 0; i < 6; i++)
        start(&out[i], i);
    printf("%d\n", out[5]);
    return 0;
}
