/* The last iteration that writes the variable gives its value on.
   expect: none */
#include <stdio.h>

int main(void) {
    int last = -1;
#pragma omp parallel for lastprivate(conditional : last)
    for (int i = 0; i < 40; i++)
        if (i % 5 == 3)
            last = i;
    printf("%d\n", last);
    return 0;
}
