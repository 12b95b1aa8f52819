/* A search that ends when one task has found it: the group's tasks that haven't started are discarded.
   expect: told cancellations */
#include <stdio.h>
#include <stdlib.h>

int main(void) {
    int found = -1, after = 0;
    setenv("OMP_CANCELLATION", "true", 1);
#pragma omp parallel
#pragma omp single
    {
#pragma omp taskgroup
        for (int i = 0; i < 20; i++) {
#pragma omp task shared(found)
            if (i == 7 || i == 12) {
#pragma omp atomic write
                found = i;
#pragma omp cancel taskgroup
            }
        }
        after = found;
    }
    printf("%d\n", after >= 0);
    return 0;
}
