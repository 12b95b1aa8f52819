/* One task parts a text by strtok, another one writes into it.
   expect: race text */
#include <stdio.h>
#include <string.h>

static char text[] = "a,b,c,d";

int main(void) {
#pragma omp parallel
#pragma omp single
    {
#pragma omp task
        strtok(text, ",");
#pragma omp task
        text[1] = 'x';
    }
    printf("%s\n", text);
    return 0;
}
