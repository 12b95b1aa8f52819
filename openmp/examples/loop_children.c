/* Each iteration waits for its child, which writes a variable of the iteration: the thread's next one has it anew.
   expect: none */
#include <stdio.h>

static int out[8];

int main(void) {
#pragma omp parallel for
    for (int i = 0; i < 8; i++) {
        int value = 0;
#pragma omp task shared(value)
        value = i;
#pragma omp taskwait
        out[i] = value;
    }
    printf("%d\n", out[3]);
    return 0;
}
