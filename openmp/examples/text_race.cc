/* C++: two tasks append to one string.
   expect: race text */
#include <cstdio>
#include <string>

int main() {
    std::string text;
#pragma omp parallel
#pragma omp single
    for (int i = 0; i < 2; i++) {
#pragma omp task shared(text)
        text += 'x';
    }
    std::printf("%zu\n", text.size());
    return 0;
}
