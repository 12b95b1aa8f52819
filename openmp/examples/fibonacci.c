/* Fibonacci's numbers: a parent waits for its two children.
   expect: none */
#include <stdio.h>

static int fibonacci(int n) {
    int first, second;
    if (n < 2)
        return n;
#pragma omp task shared(first)
    first = fibonacci(n - 1);
#pragma omp task shared(second)
    second = fibonacci(n - 2);
#pragma omp taskwait
    return first + second;
}

int main(void) {
#pragma omp parallel
#pragma omp single
    printf("%d\n", fibonacci(5));
    return 0;
}
