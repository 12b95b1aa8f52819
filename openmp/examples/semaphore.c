/* Who has waited for a semaphore, or at a barrier of POSIX, comes after who was there.
   expect: alike */
#include <pthread.h>
#include <semaphore.h>
#include <stdio.h>

int main(void) {
    int x = 0, got = 0, parts[2];
    sem_t ready;
    pthread_barrier_t barrier;
    sem_init(&ready, 0, 0);
    pthread_barrier_init(&barrier, 0, 2);
#pragma omp parallel sections num_threads(2)
    {
#pragma omp section
        {
            x = 1;
            sem_post(&ready);
            parts[0] = 1;
            pthread_barrier_wait(&barrier);
        }
#pragma omp section
        {
            sem_wait(&ready);
            got = x;
            parts[1] = 2;
            pthread_barrier_wait(&barrier);
            got += parts[0];
        }
    }
    printf("%d\n", got);
    return 0;
}
