// Virtual functions, a constructor before main, a template, a namespace, and new and delete.
#include <stdio.h>

namespace geometry {

struct Shape {
    virtual ~Shape() {}
    virtual int area() const = 0;
    const char *name;
    explicit Shape(const char *name) : name(name) {}
};

struct Square : Shape {
    int side;
    explicit Square(int side) : Shape("square"), side(side) {}
    int area() const override { return side * side; }
};

struct Strip : Shape {
    int length;
    explicit Strip(int length) : Shape("strip"), length(length) {}
    int area() const override { return length; }
};

} // namespace geometry

template <typename T> T larger(T a, T b) { return a < b ? b : a; }

struct Counter {
    int count;
    Counter() : count(40) {}
};
static Counter counter;
static const short weights[] = { 1, -2, 300, 4, 5 };

int main()
{
    geometry::Shape *shapes[] = { new geometry::Square(5), new geometry::Strip(7) };
    int most = 0;
    for (geometry::Shape *shape : shapes) {
        printf("%s %d\n", shape->name, shape->area());
        most = larger(most, shape->area());
        counter.count += weights[2];
        delete shape;
    }
    printf("%d %d\n", most, counter.count);
    return counter.count == 640 ? 0 : 1;
}
