/* Each thread counts under a lock and then looks without it; also where one thread is the whole team.
   expect: race count */
#include <stdio.h>

static int count, is_wrong;

int main(void) {
#pragma omp parallel
    {
        int seen;
#pragma omp critical
        count++;
        seen = count;
        if (seen < 0) {
#pragma omp atomic write
            is_wrong = 1;
        }
    }
    printf("%d\n", is_wrong);
    return 0;
}
