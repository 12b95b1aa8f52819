/* Each task has the exceptions that it throws for itself, also where the library has their memory once more.
   expect: none */
#include <cstdio>
#include <string>

struct Fault {
    int number;
    std::string words;
};

static int checked(int i) {
    if (i % 2)
        throw Fault{i, "a text that is too long for the string itself"};
    if (i % 3)
        throw i;
    return i;
}

int main() {
    int found[12];
#pragma omp parallel
#pragma omp single
    for (int i = 0; i < 12; i++) {
#pragma omp task shared(found) firstprivate(i)
        try {
            found[i] = checked(i);
        } catch (const Fault &fault) {
            found[i] = fault.number + static_cast<int>(fault.words.size());
        } catch (int number) {
            found[i] = -number;
        }
    }
    std::printf("%d\n", found[3]);
    return 0;
}
