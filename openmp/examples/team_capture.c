/* Each thread writes the element whose number it has drawn, which is another one for each.
   expect: alike */
#include <stdio.h>

static int drawn, out[64];

int main(void) {
#pragma omp parallel
    {
        int mine;
#pragma omp atomic capture
        mine = drawn++;
        out[mine] = 1;
    }
    printf("%d\n", out[0]);
    return 0;
}
