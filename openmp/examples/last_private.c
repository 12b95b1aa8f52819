/* The last iteration's value is written by one thread.
   expect: none */
#include <stdio.h>

int main(void) {
    int last = 0;
#pragma omp parallel for lastprivate(last)
    for (int i = 0; i < 20; i++)
        last = i;
    printf("%d\n", last);
    return 0;
}
