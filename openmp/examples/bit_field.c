/* Two members are memory of their own.
   expect: none */
#include <stdio.h>
struct pair { unsigned char left; unsigned char right; } p;
int main(void) {
#pragma omp parallel
#pragma omp single
    {
#pragma omp task
        p.left = 3;
#pragma omp task
        p.right = 5;
    }
    printf("%d\n", p.left + p.right);
}
