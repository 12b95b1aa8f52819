/* The teams of a league share a loop's iterations.
   expect: none */
#include <stdio.h>

static int out[64];

int main(void) {
#pragma omp teams distribute parallel for num_teams(2)
    for (int i = 0; i < 64; i++)
        out[i] = i;
    printf("%d\n", out[3]);
    return 0;
}
