/* Two threads share the iterations out, and one reads what the next one writes.
   expect: race a */
#include <stdio.h>

static int a[64];

int main(void) {
#pragma omp parallel for num_threads(2)
    for (int i = 0; i < 63; i++)
        a[i] = a[i + 1] + 1;
    printf("%d\n", a[5]);
    return 0;
}
