/* Blocks that are given back and taken again, each by one task; a string's copy among them.
   expect: none */
#include <stdio.h>
#include <stdlib.h>
#include <string.h>

int main(void) {
    int lengths[6];
#pragma omp parallel
#pragma omp single
    for (int i = 0; i < 6; i++) {
#pragma omp task shared(lengths) firstprivate(i)
        {
            char *text = strdup("some text");
            char *more = malloc(5);
            more[4] = 0;
            text[i] = 0;
            lengths[i] = (int)strlen(text) + more[4];
            free(more);
            free(text);
        }
    }
    printf("%d\n", lengths[5]);
    return 0;
}
