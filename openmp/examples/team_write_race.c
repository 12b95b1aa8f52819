/* All threads write one variable.
   expect: race x */
#include <stdio.h>

int main(void) {
    int x = 0;
#pragma omp parallel
    x++;
    printf("%d\n", x > 0);
    return 0;
}
