/* SPDX-License-Identifier: MIT OR Apache-2.0 */
// What wrappers.cc uses of another object.
#include "wrappers.h"

int Counted::alive = 0;
Counted::Counted(int start) : number(start), text(20, 'x') { __atomic_add_fetch(&alive, 1, 5); }
Counted::~Counted() { __atomic_sub_fetch(&alive, 1, 5); }
long Square::area() const { return side * side; }

thread_local Counted shared(100);
thread_local int plain = 4;

namespace {
struct Other final : Square {
    using Square::Square;
    long area() const override { return Square::area() + 1; }
};
} // namespace
Shape *other_shape(long side) { return new Other(side); }
long other_calls(long n) { return inlined += n + Holder<long>::value++ + once<long>(5)++; }
