/* SPDX-License-Identifier: MIT OR Apache-2.0 */
// Exceptions, types, thread-local objects and streams of a program and of a shared library.
#include "throwing.h"

#include <iostream>
#include <map>
#include <sstream>
#include <thread>
#include <typeinfo>

struct Circle : Shape {
    double area() const override { return 3; }
};

static int check(int number) {
    if (number % 2) throw Wrong("program: " + std::to_string(number));
    return 10 * number;
}

int main() {
    for (const char *text : {"a", "b"}) {
        try {
            throw_wrong(text);
        } catch (const std::exception &error) {
            std::cout << typeid(error).name() << ' ' << error.what() << '\n';
        }
    }
    for (int i = 0; i < 4; i++) {
        try {
            std::cout << call(check, i) << '\n';
        } catch (const Wrong &wrong) {
            std::cout << "in the program: " << wrong.what() << '\n';
        }
    }
    std::cout << area(Square(3)) << ' ' << area(Circle()) << ' ' << area(Shape()) << '\n';
    std::map<std::string, int> &numbers = only<std::map<std::string, int>>();
    std::istringstream in("7 x y 9");
    for (std::string word; in >> word;) numbers[word]++;
    for (const auto &[word, count] : numbers) std::cout << word << '=' << count << ' ';
    remember("main");
    std::thread([] { remember("thread"); std::cout << last << ' '; }).join();
    std::cout << last << '\n';
    try {
        std::stoi("none");
    } catch (const std::invalid_argument &error) {
        std::cout << error.what() << '\n';
    }
    return 0;
}
