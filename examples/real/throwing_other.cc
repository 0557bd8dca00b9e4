/* SPDX-License-Identifier: MIT OR Apache-2.0 */
// A shared library whose functions throw, catch what the program throws, and have types that are the
// program's too.
#include "throwing.h"

#include <iostream>

Wrong::~Wrong() {}
const char *Wrong::what() const noexcept { return text.c_str(); }
Shape::~Shape() {}
double Shape::area() const { return 0; }

namespace {
struct Guard {
    const char *name;
    ~Guard() { std::cout << "left " << name << '\n'; }
};
}

void throw_wrong(const std::string &text) {
    Guard guard{"throw_wrong"};
    throw Wrong("library: " + text);
}

int call(const std::function<int(int)> &each, int number) {
    Guard guard{"call"};
    try {
        return each(number);
    } catch (const Wrong &wrong) {
        std::cout << "in the library: " << wrong.what() << '\n';
        if (number > 1) throw;
        return -number;
    }
}

double area(const Shape &shape) {
    const Square *square = dynamic_cast<const Square *>(&shape);
    return shape.area() + (square ? 1000 : 0);
}

thread_local std::string last = "none";
void remember(const std::string &text) { last = text; }
