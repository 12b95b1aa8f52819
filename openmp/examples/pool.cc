/* A class whose objects come from a pool of its own, under a lock.
   expect: alike */
#include <cstdio>
#include <cstdlib>
#include <mutex>
#include <vector>

class Node {
public:
    static void *operator new(std::size_t size) {
        std::lock_guard<std::mutex> guard(lock_);
        if (pool_.empty())
            return std::malloc(size);
        void *block = pool_.back();
        pool_.pop_back();
        return block;
    }
    static void operator delete(void *block) {
        std::lock_guard<std::mutex> guard(lock_);
        pool_.push_back(block);
    }

    int numbers[4];

private:
    static std::vector<void *> pool_;
    static std::mutex lock_;
};

std::vector<void *> Node::pool_;
std::mutex Node::lock_;

int main() {
    int sums[12];
#pragma omp parallel
#pragma omp single
    for (int i = 0; i < 12; i++) {
#pragma omp task shared(sums) firstprivate(i)
        {
            Node *node = new Node;
            for (int &number : node->numbers)
                number = i;
            sums[i] = node->numbers[1] + node->numbers[3];
            delete node;
        }
    }
    std::printf("%d\n", sums[11]);
    return 0;
}
