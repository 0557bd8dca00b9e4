/* SPDX-License-Identifier: MIT OR Apache-2.0 */
// Thread-local objects and inline functions that two objects share.
#include <string>

struct Counted {
    static int alive;
    int number;
    std::string text;
    explicit Counted(int start);
    ~Counted();
};

struct Shape {
    virtual ~Shape() = default;
    virtual long area() const = 0;
};
struct Square : Shape {
    long side;
    explicit Square(long length) : side(length) {}
    long area() const override;
};

extern thread_local Counted shared; // has a constructor in the other object
extern thread_local int plain;      // may have one, as far as this object knows
template <typename T> struct Holder { static thread_local T value; };
template <typename T> thread_local T Holder<T>::value = T(3);
inline thread_local long inlined = 11; // of both objects

template <typename T> T &once(T start) {
    static T value = start;
    return value;
}
Shape *other_shape(long);
long other_calls(long);
