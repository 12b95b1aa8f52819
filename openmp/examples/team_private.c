/* Each thread has a variable of its own.
   expect: told critical */
#include <stdio.h>

int main(void) {
    int sum = 0;
#pragma omp parallel
    {
        int own = 0;
#pragma omp for
        for (int i = 0; i < 20; i++)
            own += i;
#pragma omp critical
        sum += own;
    }
    printf("%d\n", sum);
    return 0;
}
