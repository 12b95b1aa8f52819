/* C++: a mutex keeps the tasks apart.
   expect: told locks */
#include <cstdio>
#include <mutex>

int main() {
    std::mutex lock;
    int sum = 0;
#pragma omp parallel
#pragma omp single
    for (int i = 0; i < 4; i++) {
#pragma omp task shared(lock, sum) firstprivate(i)
        {
            std::lock_guard<std::mutex> guard(lock);
            sum += i;
        }
    }
    std::printf("%d\n", sum);
    return 0;
}
