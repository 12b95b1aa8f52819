/* A dynamic loop adds to one variable; one thread may take all chunks.
   expect: race sum */
#include <stdio.h>

int main(void) {
    int sum = 0;
#pragma omp parallel for schedule(dynamic)
    for (int i = 0; i < 10; i++)
        sum += i;
    printf("%d\n", sum);
    return 0;
}
