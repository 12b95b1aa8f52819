/* With `nogroup` nothing waits for the loop's tasks.
   expect: race data */
#include <stdio.h>

int main(void) {
    int data[6], sum = 0;
#pragma omp parallel
#pragma omp single
    {
#pragma omp taskloop shared(data) num_tasks(3) nogroup
        for (int i = 0; i < 6; i++)
            data[i] = i + 1;
        for (int i = 0; i < 6; i++)
            sum += data[i];
    }
    printf("%d\n", sum);
    return 0;
}
