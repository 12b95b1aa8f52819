/* Neighbours in a vector of bool share a word, which each task reads and writes whole.
   expect: race flags */
#include <cstdio>
#include <vector>
int main() {
    std::vector<bool> flags(64);
#pragma omp parallel
#pragma omp single
    for (int i = 0; i < 8; i++)
#pragma omp task shared(flags) firstprivate(i)
        for (int j = 0; j < 8; j++) flags[i * 8 + j] = (i + j) % 2;
    std::printf("%d\n", (int)flags[9]);
}
