/* A number that is counted atomically is read plainly by the same task right in front.
   expect: race count */
#include <stdio.h>

static int count;

int main(void) {
#pragma omp parallel
#pragma omp single
    for (int i = 0; i < 4; i++)
#pragma omp task
        {
            if (count < 100)
#pragma omp atomic
            count++;
        }
    printf("%d\n", count);
    return 0;
}
