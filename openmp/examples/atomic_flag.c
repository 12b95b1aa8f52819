/* A flag hands a number over: who reads it set comes after who set it.
   expect: told atomics */
#include <stdio.h>

int main(void) {
    int data = 0, flag = 0, got = 0;
#pragma omp parallel
#pragma omp single
    {
#pragma omp task shared(data, flag)
        {
            data = 42;
#pragma omp atomic write release
            flag = 1;
        }
#pragma omp task shared(data, flag, got)
        {
            int is_set = 0;
            while (!is_set) {
#pragma omp atomic read acquire
                is_set = flag;
#pragma omp taskyield
            }
            got = data;
        }
    }
    printf("%d\n", got);
    return 0;
}
