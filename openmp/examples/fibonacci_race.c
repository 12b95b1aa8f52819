/* The sum is computed by a third task, which waits for one of the other two alone.
   expect: race parts */
#include <stdio.h>
#include <stdlib.h>

static void fibonacci(int n, int *result) {
    if (n < 2) {
        *result = n;
        return;
    }
    int *parts = calloc(2, sizeof *parts);
#pragma omp task depend(out: parts[0])
    fibonacci(n - 1, &parts[0]);
#pragma omp task depend(out: parts[1])
    {
        int second = 0;
        fibonacci(n - 2, &second);
        parts[1] = second;
    }
#pragma omp task depend(in: parts[0])
    *result = parts[0] + parts[1];
#pragma omp taskwait
    free(parts);
}

int main(void) {
    int result = 0;
#pragma omp parallel
#pragma omp single
    fibonacci(4, &result);
    printf("%d\n", result);
    return 0;
}
