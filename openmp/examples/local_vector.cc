/* C++: each task has a vector of its own.
   expect: none */
#include <cstdio>
#include <vector>

int main() {
    int sums[6];
#pragma omp parallel
#pragma omp single
    for (int i = 0; i < 6; i++) {
#pragma omp task shared(sums) firstprivate(i)
        {
            std::vector<int> own;
            for (int k = 0; k < 20; k++)
                own.push_back(i);
            sums[i] = own[3] + own[19];
        }
    }
    std::printf("%d\n", sums[5]);
    return 0;
}
