// C++ without exceptions: new and delete, virtual functions, templates, a lambda, and variables that
// are made at the start and at their first use, and end in the opposite order.
#include <stdio.h>
#include <stdlib.h>

struct Shape {
    virtual int area() const = 0;
    virtual ~Shape() { puts("a shape ends"); }
};

struct Square : Shape {
    int side;
    explicit Square(int of) : side(of) { printf("a square of %d\n", side); }
    int area() const override { return side * side; }
    ~Square() override { printf("the square of %d ends\n", side); }
};

static Square first(2);

template <class T> static T larger(T a, T b) { return a < b ? b : a; }

static int at_first_use()
{
    static Square once(3);
    return once.area();
}

int main()
{
    Shape *shape = new Square(4);
    printf("%d %d %g\n", shape->area(), larger(3, 9), larger(2.5, 1.5));
    delete shape;
    Square *several = new Square[2]{Square(5), Square(6)};
    delete[] several;
    auto more = [&](int by) { return first.area() + by; };
    printf("%d %d %d\n", more(1), at_first_use(), at_first_use());
    return 7;
}
