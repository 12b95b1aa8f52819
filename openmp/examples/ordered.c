/* What is ordered comes in the order of the iterations.
   expect: none */
#include <stdio.h>

int main(void) {
    int a[10], last = 0;
#pragma omp parallel for ordered
    for (int i = 0; i < 10; i++) {
        a[i] = i;
#pragma omp ordered
        last = last + a[i];
    }
    printf("%d\n", last);
    return 0;
}
