/* SPDX-License-Identifier: MIT OR Apache-2.0 */
// What throwing.cc and throwing_other.cc share.
#include <exception>
#include <functional>
#include <string>

struct Wrong : std::exception {
    std::string text;
    explicit Wrong(const std::string &what) : text(what) {}
    ~Wrong() override;
    const char *what() const noexcept override;
};

struct Shape {
    virtual ~Shape();
    virtual double area() const;
};

struct Square : Shape { // (its type is of both)
    double side;
    explicit Square(double side) : side(side) {}
    double area() const override { return side * side; }
};

template <typename T> T &only() {
    static T value{};
    return value;
}

void throw_wrong(const std::string &text), remember(const std::string &text);
int call(const std::function<int(int)> &each, int number);
double area(const Shape &shape);
extern thread_local std::string last;
