/* As task_frame_pointer_race.c, but the maker's end is behind a group of its own.
   expect: none */
#include <stdio.h>

static int seen[6];

int main(void) {
#pragma omp parallel
#pragma omp single
    for (int i = 0; i < 6; i++) {
#pragma omp task firstprivate(i)
        {
            int x = i, *p = &x;
#pragma omp taskgroup
            {
#pragma omp task firstprivate(i, p)
                seen[i] = *p;
            }
        }
#pragma omp taskwait
    }
    printf("%d\n", seen[0] >= 0);
    return 0;
}
