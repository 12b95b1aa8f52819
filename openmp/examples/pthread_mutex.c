/* A mutex of POSIX keeps the tasks apart.
   expect: told locks */
#include <pthread.h>
#include <stdio.h>

static pthread_mutex_t lock = PTHREAD_MUTEX_INITIALIZER;

int main(void) {
    int sum = 0;
#pragma omp parallel
#pragma omp single
    for (int i = 0; i < 4; i++) {
#pragma omp task shared(sum) firstprivate(i)
        {
            pthread_mutex_lock(&lock);
            sum += i;
            pthread_mutex_unlock(&lock);
        }
    }
    printf("%d\n", sum);
    return 0;
}
