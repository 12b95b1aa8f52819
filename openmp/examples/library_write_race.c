/* A library function writes what another task prints.
   expect: race text memory */
#include <stdio.h>
#include <string.h>

int main(void) {
    char text[16] = "none";
#pragma omp parallel
#pragma omp single
    {
#pragma omp task shared(text)
        strcpy(text, "one");
#pragma omp task shared(text)
        printf("%s\n", text);
    }
    return 0;
}
