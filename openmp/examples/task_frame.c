/* As task_frame_race.c, but the task waits for its child.
   expect: none */
#include <stdio.h>

static void start(void) {
#pragma omp task
    {
        int x = 1;
#pragma omp task shared(x)
        x += 1;
#pragma omp taskwait
    }
}

int main(void) {
#pragma omp parallel
#pragma omp single
    for (int i = 0; i < 6; i++)
        start();
    return 0;
}
