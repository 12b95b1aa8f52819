/* The third task writes what it says that it reads.
   expect: race state */
#include <stdio.h>

int main(void) {
    int state = 7, first = 0, second = 0;
#pragma omp parallel
#pragma omp single
    {
#pragma omp task shared(state, first) depend(in: state)
        first = state + 1;
#pragma omp task shared(state, second) depend(in: state)
        second = state + 2;
#pragma omp task shared(state) depend(in: state)
        state = 0;
    }
    printf("%d %d %d\n", first, second, state);
    return 0;
}
