/* A block is given back while a task may still read it.
   expect: race text memory */
#include <stdio.h>
#include <stdlib.h>
#include <string.h>

int main(void) {
    int length = 0;
#pragma omp parallel
#pragma omp single
    {
        char *text = strdup("some text");
#pragma omp task shared(length) firstprivate(text)
        length = text[3];
        free(text);
    }
    printf("%d\n", length >= 0);
    return 0;
}
