/* Pages of the system's memory are written by a task, and read by the one that made it, in front of their end.
   expect: race pages */
#include <stdio.h>
#include <sys/mman.h>

int main(void) {
    int sum = 0;
#pragma omp parallel
#pragma omp single
    for (int i = 0; i < 4; i++) {
        int *pages = mmap(0, 4096, PROT_READ | PROT_WRITE, MAP_PRIVATE | MAP_ANONYMOUS, -1, 0);
#pragma omp task firstprivate(pages)
        pages[0] = 1;
        sum += pages[1];
        pages[0]++;
    }
    printf("%d\n", sum);
    return 0;
}
