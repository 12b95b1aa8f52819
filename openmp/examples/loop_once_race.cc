/* As loop_once.cc, but each iteration asks first.
   expect: race value */
#include <cstdio>
#include <mutex>

static std::once_flag flag;
static int value, out[8];

int main() {
#pragma omp parallel for
    for (int i = 0; i < 8; i++) {
        if (value == 0)
            std::call_once(flag, [] { value = 7; });
        out[i] = i;
    }
    std::printf("%d\n", out[3] + value);
    return 0;
}
