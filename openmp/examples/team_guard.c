/* Each thread counts under a lock and looks when all have.
   expect: alike */
#include <stdio.h>

static int count, is_wrong;

int main(void) {
#pragma omp parallel
    {
        int seen;
#pragma omp critical
        count++;
#pragma omp barrier
        seen = count;
        if (seen < 0) {
#pragma omp atomic write
            is_wrong = 1;
        }
    }
    printf("%d\n", is_wrong);
    return 0;
}
