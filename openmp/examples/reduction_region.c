/* In a region whose reduction has tasks, a thread adds to its own copy too.
   expect: told reductions */
#include <stdio.h>

int main(void) {
    int s = 0;
#pragma omp parallel reduction(task, + : s)
    {
#pragma omp single nowait
        for (int i = 0; i < 4; i++) {
#pragma omp task in_reduction(+ : s) firstprivate(i)
            s += i;
        }
        s += 1;
    }
    printf("%d\n", s > 6);
    return 0;
}
