/* The sum is read before the ordered block.
   expect: race last */
#include <stdio.h>

int main(void) {
    int a[10], last = 0;
#pragma omp parallel for ordered
    for (int i = 0; i < 10; i++) {
        a[i] = last;
#pragma omp ordered
        last = i;
    }
    printf("%d\n", last + a[3]);
    return 0;
}
