/* A league of one team, by its clause.
   expect: none */
#include <stdio.h>

int main(void) {
    int count = 0;
#pragma omp teams num_teams(1)
    count++;
    printf("%d\n", count);
    return 0;
}
