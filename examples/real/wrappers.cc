/* SPDX-License-Identifier: MIT OR Apache-2.0 */
// Thread-local objects with constructors and destructors of this object and another, what both
// objects define inline, virtual calls and static objects of functions.
#include <cstdio>
#include <functional>
#include <memory>
#include <thread>
#include <vector>

#include "wrappers.h"

static thread_local Counted mine(7);
static thread_local std::vector<int> numbers{1, 2, 3};

static long work(int n) {
    mine.number += n;
    shared.number -= n;
    plain += n;
    inlined += n;
    Holder<long>::value += plain;
    Holder<double>::value *= 1.5;
    numbers.push_back(n);
    long sum = other_calls(n) + shared.number + mine.number + static_cast<long>(numbers.size());
    return sum + static_cast<long>(Holder<double>::value * 8) +
           static_cast<long>(shared.text.size());
}

static int alive() { return __atomic_load_n(&Counted::alive, 5); }

int main() {
    std::printf("%ld\n", work(1));
    for (int i = 0; i < 4; i++) {
        long result = 0;
        std::thread([&] {
            result = work(i);
            result += work(i + 1);
        }).join();
        std::printf("%d %ld %d\n", i, result, alive());
    }
    std::vector<std::unique_ptr<Shape>> shapes;
    shapes.emplace_back(new Square(3));
    shapes.emplace_back(other_shape(4));
    std::function<long(long)> each = [&](long n) { return shapes[n & 1]->area() + n; };
    std::printf("%ld %ld %d\n", each(2), each(3),
                dynamic_cast<Square *>(shapes[1].get()) != nullptr);
    std::printf("%ld %d %ld %ld\n", inlined, plain, Holder<long>::value, once<long>(9));
    return 0;
}
