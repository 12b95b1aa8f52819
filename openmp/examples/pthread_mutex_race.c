/* Two mutexes keep nothing apart.
   expect: race sum */
#include <pthread.h>
#include <stdio.h>

static pthread_mutex_t locks[2] = {PTHREAD_MUTEX_INITIALIZER, PTHREAD_MUTEX_INITIALIZER};

int main(void) {
    int sum = 0;
#pragma omp parallel
#pragma omp single
    for (int i = 0; i < 4; i++) {
#pragma omp task shared(sum) firstprivate(i)
        {
            pthread_mutex_lock(&locks[i % 2]);
            sum += i;
            pthread_mutex_unlock(&locks[i % 2]);
        }
    }
    printf("%d\n", sum);
    return 0;
}
