/* What is done once comes in front of what each iteration does then, also where one thread has all iterations.
   expect: none */
#include <cstdio>
#include <mutex>

static std::once_flag flag;
static int value, out[8];

int main() {
#pragma omp parallel for
    for (int i = 0; i < 8; i++) {
        std::call_once(flag, [] { value = 7; });
        out[i] = value;
    }
    std::printf("%d\n", out[3]);
    return 0;
}
