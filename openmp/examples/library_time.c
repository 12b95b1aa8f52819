/* Each iteration has the parts of its time in a place of its own.
   expect: none */
#include <stdio.h>
#include <time.h>

int main(void) {
    int years[8];
#pragma omp parallel for
    for (int i = 0; i < 8; i++) {
        time_t seconds = i * 100000000L;
        struct tm parts;
        years[i] = gmtime_r(&seconds, &parts)->tm_year;
    }
    printf("%d\n", years[3]);
    return 0;
}
