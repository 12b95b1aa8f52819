/* Tasks count in one variable what they catch.
   expect: race caught */
#include <cstdio>
#include <stdexcept>

static int caught;

int main() {
#pragma omp parallel
#pragma omp single
    for (int i = 0; i < 12; i++) {
#pragma omp task firstprivate(i)
        try {
            if (i % 2)
                throw std::runtime_error("odd");
        } catch (const std::runtime_error &) {
            caught++;
        }
    }
    std::printf("%d\n", caught > 0);
    return 0;
}
