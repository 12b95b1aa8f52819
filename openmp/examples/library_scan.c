/* Each iteration scans a text into variables of its own.
   expect: none */
#include <stdio.h>

static int numbers[8];
static char words[8][20];

int main(void) {
#pragma omp parallel for
    for (int i = 0; i < 8; i++)
        sscanf("12 abc 7", "%d %19[a-z]", &numbers[i], words[i]);
    printf("%d %s\n", numbers[2], words[3]);
    return 0;
}
