/* Products of blocks: the tasks that add to one block come one after the other.
   expect: none */
#include <stdio.h>

enum { N = 2 };
static int a[N][N] = {{1, 2}, {3, 4}}, b[N][N] = {{5, 6}, {7, 8}}, c[N][N];

int main(void) {
#pragma omp parallel
#pragma omp single
    for (int i = 0; i < N; i++)
        for (int j = 0; j < N; j++)
            for (int k = 0; k < N; k++) {
#pragma omp task firstprivate(i, j, k) depend(in: a[i][k], b[k][j]) depend(inout: c[i][j])
                c[i][j] += a[i][k] * b[k][j];
            }
    printf("%d %d %d %d\n", c[0][0], c[0][1], c[1][0], c[1][1]);
    return 0;
}
