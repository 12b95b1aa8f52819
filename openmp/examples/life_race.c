/* The two fields change places while other threads still go by the old ones.
   expect: race now then */
#include <stdio.h>
enum { N = 8 };
static char one[N + 2][N + 2], two[N + 2][N + 2];
int main(void) {
    char (*now)[N + 2] = one, (*then)[N + 2] = two;
    for (int i = 1; i <= N; i++) now[i][i % 3 + 2] = 1;
#pragma omp parallel
    for (int t = 0; t < 4; t++) {
#pragma omp for
        for (int i = 1; i <= N; i++)
            for (int j = 1; j <= N; j++) {
                int near = 0;
                for (int a = -1; a <= 1; a++) for (int b = -1; b <= 1; b++) near += now[i + a][j + b];
                near -= now[i][j];
                then[i][j] = near == 3 || (near == 2 && now[i][j]);
            }
#pragma omp master
        { char (*was)[N + 2] = now; now = then; then = was; }
    }
    printf("%d\n", now[3][3]);
}
