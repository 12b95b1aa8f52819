/* Four threads make a task each; the tasks work on one counter, one for each thread's own child.
   expect: race counter */
#include <stdio.h>

int main(void) {
    int counter = 0;
#pragma omp parallel num_threads(4)
    {
#pragma omp task shared(counter) depend(inout: counter)
        counter++;
    }
    printf("%d\n", counter);
    return 0;
}
