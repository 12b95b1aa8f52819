/* The first threads of a league's teams count in one variable, one after the other in this run or not.
   expect: race count */
#include <stdio.h>

int main(void) {
    int count = 0;
#pragma omp target teams map(tofrom : count) num_teams(2)
    count++;
    printf("%d\n", count > 0);
    return 0;
}
