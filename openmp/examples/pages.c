/* Pages of the system's memory are written by a task, which ends in front of their end.
   expect: none */
#include <stdio.h>
#include <sys/mman.h>

int main(void) {
    int sum = 0;
#pragma omp parallel
#pragma omp single
    for (int i = 0; i < 4; i++) {
        int *pages = mmap(0, 4096, PROT_READ | PROT_WRITE, MAP_PRIVATE | MAP_ANONYMOUS, -1, 0);
#pragma omp task firstprivate(pages)
        pages[0] = 1;
#pragma omp taskwait
        sum += pages[1];
        munmap(pages, 4096);
    }
    printf("%d\n", sum);
    return 0;
}
