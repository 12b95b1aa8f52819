/* A condition that one waits for, under a lock that may time out.
   expect: alike */
#include <chrono>
#include <condition_variable>
#include <cstdio>
#include <mutex>

int main() {
    std::mutex mutex;
    std::timed_mutex timed;
    std::condition_variable condition;
    bool is_ready = false;
    int data = 0, got = 0, count = 0;
#pragma omp parallel sections num_threads(2)
    {
#pragma omp section
        {
            data = 4;
            {
                std::lock_guard<std::mutex> guard(mutex);
                is_ready = true;
            }
            condition.notify_one();
            if (timed.try_lock_for(std::chrono::seconds(50))) {
                count++;
                timed.unlock();
            }
        }
#pragma omp section
        {
            {
                std::unique_lock<std::mutex> guard(mutex);
                condition.wait(guard, [&] { return is_ready; });
            }
            got = data;
            if (timed.try_lock_for(std::chrono::seconds(50))) {
                count++;
                timed.unlock();
            }
        }
    }
    std::printf("%d %d\n", got, count);
    return 0;
}
