/* Tasks write different fields of a local structure.
   expect: none */
#include <stdio.h>

struct pair { int first; char second; };

int main(void) {
    struct pair both = {0, 0};
#pragma omp parallel
#pragma omp single
    {
#pragma omp task shared(both)
        both.first = 1;
#pragma omp task shared(both)
        both.second = 2;
#pragma omp taskwait
        printf("%d\n", both.first + both.second);
    }
    return 0;
}
