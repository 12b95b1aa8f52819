/* Sections that write one variable.
   expect: race a */
#include <stdio.h>

int main(void) {
    int a = 0;
#pragma omp parallel sections
    {
#pragma omp section
        a = 1;
#pragma omp section
        a = 2;
    }
    printf("%d\n", a);
    return 0;
}
