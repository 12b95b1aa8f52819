/* Two tasks of one set change the same half: a set orders its members not at all.
   Clang 14 doesn't know the word `inoutset`, but its runtime does: the type is put into a depend object.
   expect: race halves */
#include <omp.h>
#include <stdio.h>

/* The runtime's record of a dependence: address, length, and a byte for the type, of which 8 is inoutset. */
struct record {
    void *address;
    size_t length;
    unsigned char type;
};

int main(void) {
    int halves[2] = {0, 0};
    omp_depend_t set;
#pragma omp depobj(set) depend(inout: halves)
    ((struct record *)set)->type = 8;
#pragma omp parallel
#pragma omp single
    {
#pragma omp task shared(halves) depend(depobj: set)
        halves[0] = 20;
#pragma omp task shared(halves) depend(depobj: set)
        halves[0] += 22;
#pragma omp task shared(halves) depend(in: halves)
        printf("%d\n", halves[0] + halves[1]);
    }
#pragma omp depobj(set) destroy
    return 0;
}
