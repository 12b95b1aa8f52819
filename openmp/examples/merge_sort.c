/* Each half is sorted in a part of the room of its own.
   expect: none */
#include <stdio.h>
#include <string.h>
static void merge(int *a, int *room, int n) {
    int i = 0, j = n / 2, k = 0;
    while (i < n / 2 && j < n) room[k++] = a[i] <= a[j] ? a[i++] : a[j++];
    while (i < n / 2) room[k++] = a[i++];
    while (j < n) room[k++] = a[j++];
    memcpy(a, room, n * sizeof *a);
}
static void sort(int *a, int *room, int n) {
    if (n < 2) return;
#pragma omp task
    sort(a, room, n / 2);
#pragma omp task
    sort(a + n / 2, room + n / 2, n - n / 2);
#pragma omp taskwait
    merge(a, room, n);
}
int main(void) {
    int a[32], room[32];
    for (int i = 0; i < 32; i++) a[i] = i * 13 % 32;
#pragma omp parallel
#pragma omp single
    sort(a, room, 32);
    printf("%d %d\n", a[0], a[31]);
}
