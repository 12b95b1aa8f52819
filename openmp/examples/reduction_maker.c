/* Who makes the tasks of a reduction adds to the variable in front of their group and behind it.
   expect: told reductions */
#include <stdio.h>

int main(void) {
    int s = 0;
#pragma omp parallel
#pragma omp single
    {
        s += 1;
#pragma omp taskgroup task_reduction(+ : s)
        for (int i = 0; i < 5; i++) {
#pragma omp task in_reduction(+ : s) firstprivate(i)
            s += i;
        }
        s += 2;
    }
    printf("%d\n", s);
    return 0;
}
