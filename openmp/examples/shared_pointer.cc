/* C++: the last owner of a shared pointer gives its block back.
   expect: told atomic */
#include <cstdio>
#include <memory>

int main() {
    int got[3];
#pragma omp parallel
#pragma omp single
    {
        auto number = std::make_shared<int>(7);
        for (int i = 0; i < 3; i++) {
#pragma omp task shared(got) firstprivate(i, number)
            got[i] = *number;
        }
    }
    std::printf("%d\n", got[0] + got[1] + got[2]);
    return 0;
}
