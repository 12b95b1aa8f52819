/* A flag that hands nothing over: it is read without order.
   expect: race data got */
#include <stdio.h>

int main(void) {
    int data = 0, flag = 0, got = 0;
#pragma omp parallel
#pragma omp single
    {
#pragma omp task shared(data, flag)
        {
            data = 42;
#pragma omp atomic write
            flag = 1;
        }
#pragma omp task shared(data, flag, got)
        {
            int is_set;
#pragma omp atomic read
            is_set = flag;
            got = data + is_set;
        }
    }
    printf("%d\n", got);
    return 0;
}
