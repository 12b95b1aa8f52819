/* A task writes behind the call that fulfils the event.
   expect: race x */
#include <omp.h>
#include <stdio.h>

int main(void) {
    int x = 0;
#pragma omp parallel num_threads(2)
#pragma omp single
    {
        omp_event_handle_t event;
#pragma omp task detach(event) depend(out : x)
        ;
#pragma omp task shared(x) firstprivate(event)
        {
            omp_fulfill_event(event);
            x = 1;
        }
#pragma omp task shared(x) depend(in : x)
        x += 1;
    }
    printf("%d\n", x);
    return 0;
}
