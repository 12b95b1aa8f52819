/* C++: a function's static variable is made once, and who finds it made comes after its making.
   expect: none */
#include <cstdio>
#include <vector>

static const std::vector<int> &table() {
    static const std::vector<int> numbers(5, 3);
    return numbers;
}

int main() {
    int got[4];
#pragma omp parallel
#pragma omp single
    for (int i = 0; i < 4; i++) {
#pragma omp task shared(got) firstprivate(i)
        got[i] = table()[i];
    }
    std::printf("%d\n", got[0] + got[3]);
    return 0;
}
