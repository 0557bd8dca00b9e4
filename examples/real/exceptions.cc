/* SPDX-License-Identifier: MIT OR Apache-2.0 */
// Exceptions through frames with destructors, a library's own and one of this program; maps,
// strings, streams, and the initialisation of static objects in order of priority.
#include <cstdio>
#include <iostream>
#include <map>
#include <sstream>
#include <stdexcept>
#include <string>
#include <typeinfo>
#include <vector>

struct Guard {
    const char *name;
    ~Guard() { std::cout << "left " << name << '\n'; }
};

struct Wrong : std::runtime_error {
    explicit Wrong(const std::string &what) : std::runtime_error("wrong: " + what) {}
};

struct First {
    explicit First(int number) { std::printf("static %d\n", number); }
};
static First second(2);
static First first __attribute__((init_priority(200))) (1);

template <typename T> static T parse(const std::string &text) {
    Guard guard{"parse"};
    std::istringstream in(text);
    T value;
    if (!(in >> value)) throw Wrong(text);
    return value;
}

static int depth(int n) {
    Guard guard{"depth"};
    if (n == 0) return std::vector<int>(3).at(7);
    return depth(n - 1) + 1;
}

int main() {
    std::map<std::string, double> numbers;
    for (const char *text : {"1.5", "x", "-2e3", ""}) {
        try {
            numbers[text] = parse<double>(text);
        } catch (const Wrong &wrong) {
            std::cout << wrong.what() << '\n';
        }
    }
    for (const auto &[text, number] : numbers) std::cout << text << " = " << number << '\n';
    try {
        depth(3);
    } catch (const std::out_of_range &error) {
        std::cout << typeid(error).name() << '\n';
    }
    try {
        try {
            throw 42;
        } catch (...) {
            throw;
        }
    } catch (int number) {
        std::cout << number << '\n';
    }
    return 0;
}
