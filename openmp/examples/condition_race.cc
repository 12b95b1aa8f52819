/* Who waits takes what is written behind the flag.
   expect: race data */
#include <condition_variable>
#include <cstdio>
#include <mutex>

int main() {
    std::mutex mutex;
    std::condition_variable condition;
    bool is_ready = false;
    int data = 0, got = 0;
#pragma omp parallel sections num_threads(2)
    {
#pragma omp section
        {
            {
                std::lock_guard<std::mutex> guard(mutex);
                is_ready = true;
            }
            data = 4;
            condition.notify_one();
        }
#pragma omp section
        {
            {
                std::unique_lock<std::mutex> guard(mutex);
                condition.wait(guard, [&] { return is_ready; });
            }
            got = data;
        }
    }
    std::printf("%d\n", got);
    return 0;
}
