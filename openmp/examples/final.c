/* Below a certain depth the tasks are final, and run at once.
   expect: none */
#include <stdio.h>

static void fill(int *data, int length) {
    if (length == 1) {
        data[0] = 1;
        return;
    }
#pragma omp task final(length <= 4)
    fill(data, length / 2);
#pragma omp task final(length <= 4)
    fill(data + length / 2, length - length / 2);
#pragma omp taskwait
    data[0] += data[length / 2];
}

int main(void) {
    int data[8];
#pragma omp parallel
#pragma omp single
    fill(data, 8);
    printf("%d\n", data[0]);
    return 0;
}
