/* It is posted too early.
   expect: race x */
#include <semaphore.h>
#include <stdio.h>

int main(void) {
    int x = 0, got = 0;
    sem_t ready;
    sem_init(&ready, 0, 0);
#pragma omp parallel sections num_threads(2)
    {
#pragma omp section
        {
            sem_post(&ready);
            x = 1;
        }
#pragma omp section
        {
            sem_wait(&ready);
            got = x;
        }
    }
    printf("%d\n", got);
    return 0;
}
