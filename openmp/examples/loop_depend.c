/* The tasks of one iteration are ordered by their clauses, and those of a static loop's iteration with the same one of the
   loop in front.
   expect: none */
#include <stdio.h>

static int values[8];

int main(void) {
#pragma omp parallel
    {
#pragma omp for schedule(static) nowait
        for (int i = 0; i < 8; i++) {
#pragma omp task depend(inout: values[i])
            values[i] = i;
        }
#pragma omp for schedule(static)
        for (int i = 0; i < 8; i++) {
#pragma omp task depend(inout: values[i])
            values[i]++;
#pragma omp task depend(inout: values[i])
            values[i]++;
        }
    }
    printf("%d\n", values[3]);
    return 0;
}
