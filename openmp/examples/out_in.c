/* One task writes what the next one reads.
   expect: none */
#include <stdio.h>

int main(void) {
    int message = 0, answer = 0;
#pragma omp parallel
#pragma omp single
    {
#pragma omp task shared(message) depend(out: message)
        message = 41;
#pragma omp task shared(message, answer) depend(in: message)
        answer = message + 1;
#pragma omp taskwait
        printf("%d\n", answer);
    }
    return 0;
}
