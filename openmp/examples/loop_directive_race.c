/* Each iteration of `omp loop` reads what the next one writes.
   expect: race a */
#include <stdio.h>

int main(void) {
    int a[41];
    for (int i = 0; i < 41; i++)
        a[i] = i;
#pragma omp parallel
#pragma omp loop
    for (int i = 0; i < 40; i++)
        a[i] = a[i + 1];
    printf("%d\n", a[39]);
    return 0;
}
