/* Two of an array of locks are held, always the lower one first.
   expect: alike */
#include <omp.h>
#include <stdio.h>
enum { N = 5 };
static int balance[N];
static omp_lock_t locks[N];
static void move(int from, int to, int amount) {
    int first = from < to ? from : to, last = from < to ? to : from;
    omp_set_lock(&locks[first]);
    omp_set_lock(&locks[last]);
    balance[from] -= amount;
    balance[to] += amount;
    omp_unset_lock(&locks[last]);
    omp_unset_lock(&locks[first]);
}
int main(void) {
    int all = 0;
    for (int i = 0; i < N; i++) omp_init_lock(&locks[i]);
#pragma omp parallel for
    for (int i = 0; i < 20; i++) move(i % N, (i * 3 + 1) % N == i % N ? (i + 2) % N : (i * 3 + 1) % N, i);
    for (int i = 0; i < N; i++) all += balance[i];
    printf("%d\n", all);
}
