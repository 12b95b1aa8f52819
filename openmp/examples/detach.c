/* A detached task ends when its event is fulfilled: who waits for it comes after that.
   expect: none */
#include <omp.h>
#include <stdio.h>

int main(void) {
    int x = 0;
#pragma omp parallel num_threads(2)
#pragma omp single
    {
        omp_event_handle_t event;
#pragma omp task detach(event) depend(out : x)
        ;
#pragma omp task shared(x) firstprivate(event)
        {
            x = 1;
            omp_fulfill_event(event);
        }
#pragma omp task shared(x) depend(in : x)
        x += 1;
    }
    printf("%d\n", x);
    return 0;
}
