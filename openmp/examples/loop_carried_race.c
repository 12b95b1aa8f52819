/* Each iteration reads what the one in front of it writes.
   expect: race a */
#include <stdio.h>

int main(void) {
    int a[20];
    for (int i = 0; i < 20; i++)
        a[i] = i;
#pragma omp parallel for
    for (int i = 1; i < 20; i++)
        a[i] = a[i - 1] + 1;
    printf("%d\n", a[7]);
    return 0;
}
