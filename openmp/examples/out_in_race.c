/* The reader has no depend clause: the writer's alone orders nothing.
   expect: race message */
#include <stdio.h>

int main(void) {
    int message = 0, answer = 0;
#pragma omp parallel
#pragma omp single
    {
#pragma omp task shared(message) depend(out: message)
        message = 41;
#pragma omp task shared(message, answer)
        answer = message + 1;
#pragma omp taskwait
        printf("%d\n", answer);
    }
    return 0;
}
