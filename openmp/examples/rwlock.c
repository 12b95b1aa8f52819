/* Readers of a lock aren't kept apart from each other, but from who writes.
   expect: told locks */
#include <pthread.h>
#include <stdio.h>

static pthread_rwlock_t lock = PTHREAD_RWLOCK_INITIALIZER;

int main(void) {
    int x = 0, seen[3];
#pragma omp parallel
#pragma omp single
    {
        for (int i = 0; i < 3; i++) {
#pragma omp task shared(x, seen) firstprivate(i)
            {
                pthread_rwlock_rdlock(&lock);
                seen[i] = x;
                pthread_rwlock_unlock(&lock);
            }
        }
#pragma omp task shared(x)
        {
            pthread_rwlock_wrlock(&lock);
            x = 1;
            pthread_rwlock_unlock(&lock);
        }
    }
    printf("%d\n", seen[0] >= 0);
    return 0;
}
