/* Each thread adds its number, which it keeps in a variable of its own, to one sum. One thread doesn't show it.
   expect: hidden all */
#include <omp.h>
#include <stdio.h>

static int mine, all;
#pragma omp threadprivate(mine)

int main(void) {
#pragma omp parallel
    {
        mine = omp_get_thread_num();
        all += mine;
    }
    printf("%d\n", all >= 0);
    return 0;
}
