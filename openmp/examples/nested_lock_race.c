/* A nested lock is given back before the last sum.
   expect: race sum */
#include <omp.h>
#include <stdio.h>

static omp_nest_lock_t lock;
static int sum;

static void add(int n) {
    omp_set_nest_lock(&lock);
    sum += n;
    omp_unset_nest_lock(&lock);
}

int main(void) {
    omp_init_nest_lock(&lock);
#pragma omp parallel
#pragma omp single
    for (int i = 0; i < 4; i++) {
#pragma omp task firstprivate(i)
        {
            add(i);
            sum += 1;
        }
    }
    omp_destroy_nest_lock(&lock);
    printf("%d\n", sum);
    return 0;
}
