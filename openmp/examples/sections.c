/* Tasks work on sections of an array, by the section's first element.
   expect: none */
#include <stdio.h>

enum { LENGTH = 6, PART = 2 };

int main(void) {
    int data[LENGTH], sums[LENGTH / PART];
#pragma omp parallel
#pragma omp single
    {
        for (int at = 0; at < LENGTH; at += PART) {
#pragma omp task shared(data) firstprivate(at) depend(out: data[at:PART])
            for (int i = at; i < at + PART; i++)
                data[i] = i * i;
#pragma omp task shared(data, sums) firstprivate(at) depend(in: data[at:PART])
            sums[at / PART] = data[at] + data[at + 1];
        }
    }
    printf("%d %d %d\n", sums[0], sums[1], sums[2]);
    return 0;
}
