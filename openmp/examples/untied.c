/* Untied tasks that wait, and may go on by another thread.
   expect: none */
#include <stdio.h>

static int fib(int n) {
    int a, b;
    if (n < 2)
        return n;
#pragma omp task untied shared(a) firstprivate(n)
    a = fib(n - 1);
#pragma omp task untied shared(b) firstprivate(n)
    b = fib(n - 2);
#pragma omp taskwait
    return a + b;
}

int main(void) {
    int result = 0;
#pragma omp parallel
#pragma omp single
#pragma omp task untied shared(result)
    result = fib(7);
    printf("%d\n", result);
    return 0;
}
