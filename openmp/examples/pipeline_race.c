/* The last stage doesn't wait for its own last turn.
   expect: race writer */
#include <stdio.h>

enum { ITEMS = 3 };

int main(void) {
    int read_to[ITEMS], worked[ITEMS], reader = 0, writer = 0;
#pragma omp parallel
#pragma omp single
    for (int i = 0; i < ITEMS; i++) {
#pragma omp task shared(read_to, reader) firstprivate(i) depend(inout: reader) depend(out: read_to[i])
        read_to[i] = ++reader;
#pragma omp task shared(read_to, worked) firstprivate(i) depend(in: read_to[i]) depend(out: worked[i])
        worked[i] = read_to[i] * read_to[i];
#pragma omp task shared(worked, writer) firstprivate(i) depend(in: worked[i])
        writer = writer * 10 + worked[i];
    }
    printf("%d\n", writer);
    return 0;
}
