/* What one task scans another one writes.
   expect: race second memory */
#include <stdio.h>

static int first, second;

int main(void) {
#pragma omp parallel
#pragma omp single
    {
#pragma omp task
        sscanf("12 abc 7", "%d %*s %d", &first, &second);
#pragma omp task
        second = 3;
    }
    printf("%d %d\n", first, second);
    return 0;
}
