/* Two bit-fields in a row are one place of memory.
   expect: race p */
#include <stdio.h>
struct pair { unsigned left : 4; unsigned right : 4; } p;
int main(void) {
#pragma omp parallel
#pragma omp single
    {
#pragma omp task
        p.left = 3;
#pragma omp task
        p.right = 5;
    }
    printf("%d\n", p.left + p.right);
}
