/* Who makes the tasks of a reduction adds to the variable itself, while they may be put together.
   expect: race s */
#include <stdio.h>

int main(void) {
    int s = 0;
#pragma omp parallel
#pragma omp single
#pragma omp taskgroup task_reduction(+ : s)
    {
        for (int i = 0; i < 5; i++) {
#pragma omp task in_reduction(+ : s) firstprivate(i)
            s += i;
        }
        s += 1;
    }
    printf("%d\n", s);
    return 0;
}
