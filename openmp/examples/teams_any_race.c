/* How many teams a league has, the runtime says: each would count.
   expect: race count */
#include <stdio.h>

int main(void) {
    int count = 0;
#pragma omp teams
    count++;
    printf("%d\n", count > 0);
    return 0;
}
