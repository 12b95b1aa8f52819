/* Each thread keeps its number in a variable of its own, and adds it by a reduction.
   expect: told reductions */
#include <omp.h>
#include <stdio.h>

static int mine;
#pragma omp threadprivate(mine)

int main(void) {
    int all = 0;
#pragma omp parallel reduction(+ : all)
    {
        mine = omp_get_thread_num();
        all += mine;
    }
    printf("%d\n", all >= 0);
    return 0;
}
