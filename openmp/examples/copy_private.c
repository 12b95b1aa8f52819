/* One thread reads a number, and all get it.
   expect: told critical */
#include <stdio.h>

int main(void) {
    int sum = 0;
#pragma omp parallel
    {
        int number;
#pragma omp single copyprivate(number)
        number = 4;
#pragma omp critical
        sum += number;
    }
    printf("%d\n", sum > 0);
    return 0;
}
