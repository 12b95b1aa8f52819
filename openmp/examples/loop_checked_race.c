/* Each iteration looks whether the number is there before it takes the lock under which it is made.
   expect: race instance made get */
#include <stdio.h>
#include <stdlib.h>

static int *instance;
static int out[8];

static int *get(void) {
    if (!instance) {
#pragma omp critical
        if (!instance) {
            int *made = malloc(sizeof *made);
            *made = 7;
            instance = made;
        }
    }
    return instance;
}

int main(void) {
#pragma omp parallel for
    for (int i = 0; i < 8; i++)
        out[i] = *get();
    printf("%d\n", out[2]);
    free(instance);
    return 0;
}
