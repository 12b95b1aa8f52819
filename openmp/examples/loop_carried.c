/* Each iteration has an element of its own.
   expect: none */
#include <stdio.h>

int main(void) {
    int a[20];
#pragma omp parallel for
    for (int i = 0; i < 20; i++)
        a[i] = i * i;
    printf("%d\n", a[7]);
    return 0;
}
