/* Sums in any order, but never two at once; the last task waits for all.
   expect: apart sum */
#include <stdio.h>

int main(void) {
    int sum = 0;
#pragma omp parallel
#pragma omp single
    {
        for (int i = 1; i <= 3; i++) {
#pragma omp task shared(sum) firstprivate(i) depend(mutexinoutset: sum)
            sum += i;
        }
#pragma omp task shared(sum) depend(in: sum)
        printf("%d\n", sum);
    }
    return 0;
}
