/* C++: tasks add to one vector.
   expect: race all */
#include <cstdio>
#include <vector>

int main() {
    std::vector<int> all;
    all.reserve(10);
#pragma omp parallel
#pragma omp single
    for (int i = 0; i < 2; i++) {
#pragma omp task shared(all) firstprivate(i)
        all.push_back(i);
#pragma omp taskyield
    }
    std::printf("%zu\n", all.size());
    return 0;
}
