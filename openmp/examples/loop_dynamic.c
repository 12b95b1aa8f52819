/* A dynamic loop: whoever takes a chunk, it has elements of its own.
   expect: none */
#include <stdio.h>

int main(void) {
    int a[40];
#pragma omp parallel for schedule(dynamic, 4)
    for (int i = 0; i < 40; i++)
        a[i] = i;
    printf("%d\n", a[7]);
    return 0;
}
