/* A const object keeps a result: calls that look like reading write.
   expect: race cached_ */
#include <cstdio>
class Circle {
public:
    explicit Circle(double r) : r_(r) {}
    double area() const {
        if (cached_ < 0) cached_ = 3 * r_ * r_;
        return cached_;
    }
private:
    double r_;
    mutable double cached_ = -1;
};
int main() {
    const Circle circle(2);
    double sums[4];
#pragma omp parallel
#pragma omp single
    for (int i = 0; i < 4; i++)
#pragma omp task shared(circle, sums) firstprivate(i)
        sums[i] = circle.area() * i;
    std::printf("%g\n", sums[3]);
}
