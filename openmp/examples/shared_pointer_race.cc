/* C++: what a shared pointer owns is written by all owners.
   expect: race number memory */
#include <cstdio>
#include <memory>

int main() {
#pragma omp parallel
#pragma omp single
    {
        auto number = std::make_shared<int>(7);
        for (int i = 0; i < 3; i++) {
#pragma omp task firstprivate(number)
            *number += 1;
        }
#pragma omp taskwait
        std::printf("%d\n", *number);
    }
    return 0;
}
