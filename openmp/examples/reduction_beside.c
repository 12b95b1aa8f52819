/* Tasks of a reduction that write other memory beside it: each an element of its own, and a count by atomic additions.
   expect: told reductions */
#include <stdio.h>

int main(void) {
    int sum = 0, parts[4] = {0}, done[8] = {0}, count = 0;
#pragma omp parallel
#pragma omp single
#pragma omp taskgroup task_reduction(+ : sum, parts)
    for (int i = 0; i < 8; i++) {
#pragma omp task in_reduction(+ : sum, parts) firstprivate(i) shared(done, count)
        {
            sum += i;
            for (int k = 0; k < 4; k++)
                parts[k] += k * i;
            done[i] = 1;
#pragma omp atomic
            count++;
        }
    }
    printf("%d %d %d %d\n", sum, parts[3], done[7], count);
    return 0;
}
