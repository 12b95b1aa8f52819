/* An object of a pool is read after it was given back.
   expect: race node */
#include <cstdio>
#include <cstdlib>
#include <mutex>
#include <vector>

struct Node {
    int number;
};

static std::vector<Node *> pool;
static std::mutex lock;

static Node *take() {
    std::lock_guard<std::mutex> guard(lock);
    if (pool.empty())
        return static_cast<Node *>(std::malloc(sizeof(Node)));
    Node *node = pool.back();
    pool.pop_back();
    return node;
}

static void give_back(Node *node) {
    std::lock_guard<std::mutex> guard(lock);
    pool.push_back(node);
}

int main() {
    int numbers[12];
#pragma omp parallel
#pragma omp single
    for (int i = 0; i < 12; i++) {
#pragma omp task shared(numbers) firstprivate(i)
        {
            Node *node = take();
            node->number = i;
            give_back(node);
            numbers[i] = node->number;
        }
    }
    std::printf("%d\n", numbers[11] >= 0);
    return 0;
}
