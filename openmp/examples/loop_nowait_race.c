/* Behind a loop that nobody waits at its end all threads count: one thread shows that.
   expect: race count */
#include <stdio.h>

int main(void) {
    int x[20], count = 0;
#pragma omp parallel
    {
#pragma omp for nowait
        for (int i = 0; i < 20; i++)
            x[i] = i;
        count++;
    }
    printf("%d %d\n", x[3], count > 0);
    return 0;
}
