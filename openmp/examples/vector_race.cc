/* C++: the task that sums up names the vector as it is read, and so do those that fill it.
   expect: race numbers memory */
#include <cstdio>
#include <vector>

int main() {
    int sum = 0;
#pragma omp parallel
#pragma omp single
    {
        std::vector<int> numbers(3);
        for (int i = 0; i < 3; i++) {
#pragma omp task shared(numbers) firstprivate(i) depend(in: numbers)
            numbers[i] = i + 1;
        }
#pragma omp task shared(numbers, sum) depend(in: numbers)
        for (int number : numbers)
            sum += number;
#pragma omp taskwait
    }
    std::printf("%d\n", sum);
    return 0;
}
