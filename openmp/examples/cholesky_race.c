/* Cholesky's factors in blocks, where the update forgot one `in`: it doesn't wait for the second block.
   expect: race a b c */
#include <math.h>
#include <stdio.h>

enum { BLOCKS = 3, SIZE = 2, ORDER = BLOCKS * SIZE };
typedef double Block[SIZE][SIZE];

static Block matrix[BLOCKS][BLOCKS];

static void factor(Block a) {
    for (int k = 0; k < SIZE; k++) {
        a[k][k] = sqrt(a[k][k]);
        for (int i = k + 1; i < SIZE; i++) {
            a[i][k] /= a[k][k];
            for (int j = k + 1; j <= i; j++)
                a[i][j] -= a[i][k] * a[j][k];
        }
    }
}

static void solve(Block l, Block a) {
    for (int i = 0; i < SIZE; i++)
        for (int k = 0; k < SIZE; k++) {
            for (int j = 0; j < k; j++)
                a[i][k] -= a[i][j] * l[k][j];
            a[i][k] /= l[k][k];
        }
}

static void update(Block a, Block b, Block c) {
    for (int i = 0; i < SIZE; i++)
        for (int j = 0; j < SIZE; j++)
            for (int k = 0; k < SIZE; k++)
                c[i][j] -= a[i][k] * b[j][k];
}

static void cholesky(void) {
    for (int k = 0; k < BLOCKS; k++) {
#pragma omp task firstprivate(k) depend(inout: matrix[k][k])
        factor(matrix[k][k]);
        for (int i = k + 1; i < BLOCKS; i++) {
#pragma omp task firstprivate(k, i) depend(in: matrix[k][k]) depend(inout: matrix[i][k])
            solve(matrix[k][k], matrix[i][k]);
        }
        for (int i = k + 1; i < BLOCKS; i++)
            for (int j = k + 1; j <= i; j++) {
#pragma omp task firstprivate(k, i, j) depend(in: matrix[i][k]) depend(inout: matrix[i][j])
                update(matrix[i][k], matrix[j][k], matrix[i][j]);
            }
    }
}

int main(void) {
    for (int i = 0; i < ORDER; i++)
        for (int j = 0; j < ORDER; j++)
            matrix[i / SIZE][j / SIZE][i % SIZE][j % SIZE] = i == j ? ORDER : 1.0;
#pragma omp parallel
#pragma omp single
    cholesky();
    printf("%.4f\n", matrix[BLOCKS - 1][BLOCKS - 1][SIZE - 1][SIZE - 1]);
    return 0;
}
