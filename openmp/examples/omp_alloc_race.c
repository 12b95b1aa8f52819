/* A task gives back memory that another one writes.
   expect: race shared_room */
#include <omp.h>
#include <stdio.h>

int main(void) {
    int *shared_room = omp_alloc(8 * sizeof *shared_room, omp_default_mem_alloc);
#pragma omp parallel
#pragma omp single
    {
#pragma omp task firstprivate(shared_room)
        shared_room[5] = 1;
#pragma omp task firstprivate(shared_room)
        omp_free(shared_room, omp_default_mem_alloc);
    }
    printf("done\n");
    return 0;
}
