/* C++: a function's static pointer is made by hand.
   expect: race numbers memory table __first */
#include <cstdio>
#include <vector>

static std::vector<int> *numbers;

static std::vector<int> &table() {
    if (!numbers)
        numbers = new std::vector<int>(5, 3);
    return *numbers;
}

int main() {
    int got[4];
#pragma omp parallel
#pragma omp single
    for (int i = 0; i < 4; i++) {
#pragma omp task shared(got) firstprivate(i)
        got[i] = table()[i];
    }
    std::printf("%d\n", got[0] + got[3]);
    return 0;
}
