/* C++: each task has a string of its own.
   expect: none */
#include <cstdio>
#include <string>

int main() {
    std::string texts[4];
#pragma omp parallel
#pragma omp single
    for (int i = 0; i < 4; i++) {
#pragma omp task shared(texts) firstprivate(i)
        {
            texts[i] = "a rather long text, longer than what is kept inside: ";
            texts[i] += std::to_string(i);
        }
    }
    std::printf("%s\n", texts[3].c_str());
    return 0;
}
