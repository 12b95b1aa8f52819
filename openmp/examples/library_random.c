/* Who asks the library for a random number first gets another one than who asks next.
   expect: alike */
#include <stdio.h>
#include <stdlib.h>

int main(void) {
    int numbers[8];
#pragma omp parallel for
    for (int i = 0; i < 8; i++)
        numbers[i] = rand();
    printf("%d\n", numbers[0] >= 0);
    return 0;
}
