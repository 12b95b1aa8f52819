/* The threads of each team of a league count in one variable.
   expect: race count */
#include <stdio.h>

static int count;

int main(void) {
#pragma omp teams num_teams(2)
#pragma omp parallel num_threads(2)
    count++;
    printf("%d\n", count > 0);
    return 0;
}
