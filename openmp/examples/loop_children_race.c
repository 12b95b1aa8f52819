/* As loop_children.c, but the children of all iterations write one variable too.
   expect: race last */
#include <stdio.h>

static int out[8], last;

int main(void) {
#pragma omp parallel for
    for (int i = 0; i < 8; i++) {
        int value = 0;
#pragma omp task shared(value)
        {
            value = i;
            last = i;
        }
#pragma omp taskwait
        out[i] = value;
    }
    printf("%d %d\n", out[3], last);
    return 0;
}
