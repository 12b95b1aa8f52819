/* The library has one place for the parts of a time, which all get.
   expect: race gmtime parts */
#include <stdio.h>
#include <time.h>

int main(void) {
    int years[8];
#pragma omp parallel for
    for (int i = 0; i < 8; i++) {
        time_t seconds = i * 100000000L;
        const struct tm *parts = gmtime(&seconds);
        years[i] = parts->tm_year;
    }
    printf("%d\n", years[3]);
    return 0;
}
