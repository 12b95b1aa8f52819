/* Each task has its board in an array of its own, and waits for those that read it.
   expect: alike */
#include <stdio.h>
#include <string.h>
static int found;
static int fits(const char *board, int row, int column) {
    for (int i = 0; i < row; i++)
        if (board[i] == column || board[i] - column == row - i || column - board[i] == row - i) return 0;
    return 1;
}
static void place(int n, int row, const char *board) {
    if (row == n) {
#pragma omp atomic
        found++;
        return;
    }
    for (int c = 0; c < n; c++)
#pragma omp task firstprivate(c)
    {
        char next[row + 1];
        memcpy(next, board, row);
        next[row] = c;
        if (fits(next, row, c)) place(n, row + 1, next);
    }
#pragma omp taskwait
}
int main(void) {
#pragma omp parallel
#pragma omp single
    place(5, 0, "");
    printf("%d\n", found);
}
