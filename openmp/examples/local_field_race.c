/* What made a task reads a field of a local structure while the task may write it.
   expect: race both */
#include <stdio.h>

struct pair { int first; char second; };

int main(void) {
    struct pair both = {0, 0};
#pragma omp parallel
#pragma omp single
    {
#pragma omp task shared(both)
        both.second = 2;
        both.first = both.second;
    }
    printf("%d\n", both.first);
    return 0;
}
