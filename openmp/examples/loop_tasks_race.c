/* Tasks that a loop's iterations make aren't siblings of those of another thread: the clause orders some alone.
   expect: race last */
#include <stdio.h>

int main(void) {
    int last = 0;
#pragma omp parallel
#pragma omp for
    for (int i = 0; i < 8; i++) {
#pragma omp task shared(last) firstprivate(i)
        last = i;
    }
    printf("%d\n", last);
    return 0;
}
