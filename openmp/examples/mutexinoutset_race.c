/* The tasks that add say `in`: nothing keeps them apart.
   expect: race sum */
#include <stdio.h>

int main(void) {
    int sum = 0;
#pragma omp parallel
#pragma omp single
    {
        for (int i = 1; i <= 3; i++) {
#pragma omp task shared(sum) firstprivate(i) depend(in: sum)
            sum += i;
        }
#pragma omp task shared(sum) depend(in: sum)
        printf("%d\n", sum);
    }
    return 0;
}
