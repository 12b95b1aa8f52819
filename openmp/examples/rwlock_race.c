/* Who writes holds the lock only to read.
   expect: race x */
#include <pthread.h>
#include <stdio.h>

static pthread_rwlock_t lock = PTHREAD_RWLOCK_INITIALIZER;

int main(void) {
    int x = 0;
#pragma omp parallel
#pragma omp single
    for (int i = 0; i < 3; i++) {
#pragma omp task shared(x)
        {
            pthread_rwlock_rdlock(&lock);
            x++;
            pthread_rwlock_unlock(&lock);
        }
    }
    printf("%d\n", x);
    return 0;
}
