/* SPDX-License-Identifier: MIT OR Apache-2.0 */
/* linker_utils.h for C++17 and later: calls that take containers in place of pointers and lengths,
 * and return what they write. Each calls the function in C that its comment names, which is
 * explained with its statuses in the headers for C. A program may call both: the library is the
 * same.
 *
 * - A call that can fail returns an `outcome`, or a `result`: an outcome and what the call wrote,
 *   as `std::expected`. `value()` of either throws `error` where the call failed; nothing else here
 *   throws. Without exceptions it ends the program: there test the outcome, and take `*result`.
 * - A `span` is made of a container with `data()` and `size()`, which may be empty, of an array, of
 *   `std::span`, and of `{}`. */
#ifndef LINKER_UTILS_HPP
#define LINKER_UTILS_HPP

#if __cplusplus < 201703L && (!defined(_MSVC_LANG) || _MSVC_LANG < 201703L)
#error "linker_utils.hpp is for C++17 and later; linker_utils.h is for C++11, too"
#endif

#include <cstdlib>
#include <iterator>
#include <memory>
#include <new>
#include <stdexcept>
#include <string_view>
#include <type_traits>
#include <utility>

#include "linker_utils.h"

/* The calls, and what they take and return. */
namespace linker_utils {

/* Elements one after another that belong to another object, as `std::span` of C++20. */
template <class T> class span {
public:
    constexpr span() noexcept = default;
    constexpr span(T *data, size_t size) noexcept : data_(data), size_(size) {}
    /* All of a container of `T`, or of `T` without its `const`. */
    template <class C, class E = std::remove_pointer_t<decltype(std::data(std::declval<C &>()))>,
              class = std::enable_if_t<std::is_convertible_v<E (*)[], T (*)[]>>>
    constexpr span(C &&all) noexcept : data_(std::data(all)), size_(std::size(all)) {}
    constexpr T *data() const noexcept { return data_; }
    constexpr size_t size() const noexcept { return size_; }
    constexpr T &operator[](size_t index) const noexcept { return data_[index]; }
    constexpr T *begin() const noexcept { return data_; }
    constexpr T *end() const noexcept { return data_ + size_; }

private:
    T *data_ = nullptr;
    size_t size_ = 0;
};

/* Relocations as their file has them: a container of `Elf64_Rela`, or of another type of 24 bytes.
 * `Void` is `void`, or `const void` for a call that only reads them. */
template <class Void> struct relas {
    Void *first = nullptr;
    size_t count = 0;
    constexpr relas() noexcept = default;
    template <class C, class E = std::remove_pointer_t<decltype(std::data(std::declval<C &>()))>>
    constexpr relas(C &&all) noexcept : first(std::data(all)), count(std::size(all)) {
        static_assert(sizeof(E) == 24, "a relocation has 24 bytes");
    }
};

/* An object, of containers. Other fields are null at first. */
struct object : linker_utils_object {
    explicit object(span<const linker_utils_symbol_facts> facts,
                    span<const linker_utils_symbol> values = {},
                    span<linker_utils_unrelaxable_groups> kept = {}) noexcept
        : linker_utils_object{facts.data(), facts.size(), values.data(), values.size(), kept.data(),
                              kept.size(), nullptr, 0, nullptr, 0} {}
};

/* A section, of containers. Other fields are 0 at first. */
struct section : linker_utils_section {
    explicit section(span<uint8_t> bytes, relas<void> relocations = {},
                     uint64_t address = 0) noexcept
        : linker_utils_section{bytes.data(), bytes.size(), relocations.first, relocations.count,
                               address, 0, nullptr, 0, nullptr, 0} {}
    /* Of constants, for calls that only read bytes and relocations. */
    static section of_constants(span<const uint8_t> bytes, relas<const void> relocations = {},
                                uint64_t address = 0) noexcept {
        section made{{const_cast<uint8_t *>(bytes.data()), bytes.size()}, {}, address};
        made.relocations = const_cast<void *>(relocations.first);
        made.relocations_len = relocations.count;
        return made;
    }
};

/* A run, of containers. */
struct run : linker_utils_run {
    explicit run(span<const linker_utils_item> items, uint64_t start = 0,
                 span<const linker_utils_delta> lost = {}) noexcept
        : linker_utils_run{start, items.data(), items.size(), lost.data(), lost.size()} {}
};

/* `faulty` of a status that is about no entry of an array. */
inline constexpr size_t no_index = SIZE_MAX;

/* What `value()` throws. `what()` is `linker_utils_status_text`. */
struct error : std::runtime_error {
    uint32_t status;
    size_t faulty; /* the index of the entry that the status is about, or `no_index` */
    error(uint32_t status, size_t faulty)
        : runtime_error(linker_utils_status_text(status)), status(status), faulty(faulty) {}
};

/* How a call ended. It converts to true where the status is LINKER_UTILS_OK. */
struct [[nodiscard]] outcome {
    uint32_t status;
    size_t faulty = no_index; /* as in `error` */
    explicit operator bool() const noexcept { return status == LINKER_UTILS_OK; }
    const char *text() const noexcept { return linker_utils_status_text(status); }
    void value() const {
        if (*this) return;
#ifdef __cpp_exceptions
        throw error(status, faulty);
#else
        std::abort();
#endif
    }
};

/* How a call ended, and what it wrote if it succeeded. */
template <class T> class [[nodiscard]] result : public outcome {
public:
    result(outcome ended, T value) noexcept : outcome(ended), value_(std::move(value)) {}
    T &operator*() noexcept { return value_; }
    const T &operator*() const noexcept { return value_; }
    T *operator->() noexcept { return &value_; }
    const T *operator->() const noexcept { return &value_; }
    const T &value() const & { return outcome::value(), value_; }
    T value() && { return outcome::value(), std::move(value_); }

private:
    T value_;
};

/* A name, in `room`: `linker_utils_relocation_name`. LINKER_UTILS_NAME_SIZE bytes are enough. */
inline result<std::string_view> name(uint16_t machine, uint32_t r_type, span<char> room) noexcept {
    size_t used = 0;
    outcome ended = {linker_utils_relocation_name(
        machine, r_type, reinterpret_cast<uint8_t *>(room.data()), room.size(), &used)};
    return {ended, std::string_view(room.data(), used)};
}

/* A relocation, looked up once by `linker_utils_find`. It converts to true where there is one. */
struct row {
    uint32_t handle;
    explicit row(uint32_t handle) noexcept : handle(handle) {}
    row(uint16_t machine, uint32_t r_type) noexcept : handle(linker_utils_find(machine, r_type)) {}
    explicit operator bool() const noexcept { return handle != 0; }
    /* What it means and requires: `linker_utils_row_of`. */
    result<linker_utils_row> facts() const noexcept {
        linker_utils_row facts{};
        return {{linker_utils_row_of(handle, &facts)}, facts};
    }
    /* Its value: `linker_utils_row_value`. */
    result<int64_t> value(const linker_utils_operands &operands) const noexcept {
        int64_t number = 0;
        return {{linker_utils_row_value(handle, &operands, &number)}, number};
    }
    /* Writes a value: `linker_utils_row_write`. */
    outcome write(int64_t number, span<uint8_t> dest) const noexcept {
        return {linker_utils_row_write(handle, number, dest.data(), dest.size())};
    }
    /* Writes its value: `linker_utils_row_apply`. */
    outcome apply(const linker_utils_operands &operands, span<uint8_t> dest) const noexcept {
        return {linker_utils_row_apply(handle, &operands, dest.data(), dest.size())};
    }
    /* What it requires of a linker: `linker_utils_row_needs`. */
    result<linker_utils_requirements> needs(int64_t addend, bool is_thread_local) const noexcept {
        linker_utils_requirements required{};
        return {{linker_utils_row_needs(handle, addend, is_thread_local, &required)}, required};
    }
    /* Which rewrite a linker may make: `linker_utils_row_choose`. */
    result<linker_utils_choice> choose(const linker_utils_section &section, uint64_t offset,
                                       const linker_utils_link_facts &facts) const noexcept {
        linker_utils_choice choice{};
        return {{linker_utils_row_choose(handle, &section, offset, &facts, &choice)}, choice};
    }
};

/* Makes the rewrite of a choice: `linker_utils_apply`. */
inline outcome apply(uint16_t machine, const linker_utils_choice &choice,
                     const linker_utils_section &section, uint64_t &offset,
                     int64_t &addend) noexcept {
    return {linker_utils_apply(machine, choice.rewrite, choice.opcode_len, &section, &offset,
                               &addend)};
}

/* Notes which groups of an object are kept: `linker_utils_survey`. */
inline outcome survey(const linker_utils_link &link, const linker_utils_object &object,
                      const linker_utils_section &section) noexcept {
    return {linker_utils_survey(&link, &object, &section)};
}

/* Rewrites the instructions of a section: `linker_utils_rewrite_section`. */
inline outcome rewrite_section(const linker_utils_link &link, const linker_utils_object &object,
                               const linker_utils_section &section,
                               span<linker_utils_decision> decisions) noexcept {
    size_t faulty = no_index;
    const linker_utils_rewritten rewritten = {decisions.data(), decisions.size(), nullptr, 0, 0};
    return {linker_utils_rewrite_section(&link, &object, &section, &rewritten, &faulty), faulty};
}

/* Writes the values of a section: `linker_utils_relocate_section`. `memory` has an element for each
 * relocation. */
inline outcome relocate_section(const linker_utils_link &link, const linker_utils_object &object,
                                const linker_utils_section &section,
                                span<uint64_t> memory) noexcept {
    size_t faulty = no_index;
    return {linker_utils_relocate_section(&link, &object, &section, memory.data(), memory.size(),
                                          &faulty), faulty};
}

/* The same by the section's `resolved`: `linker_utils_relocate_resolved`. */
inline outcome relocate_resolved(const linker_utils_link &link, const linker_utils_section &section,
                                 span<uint64_t> memory) noexcept {
    size_t faulty = no_index;
    return {linker_utils_relocate_resolved(&link, &section, memory.data(), memory.size(), &faulty),
            faulty};
}

/* The deltas of deletions: a container that owns their list. */
class deltas {
public:
    deltas() noexcept = default;
    deltas(deltas &&other) noexcept { swap(other); }
    deltas &operator=(deltas &&other) noexcept { return swap(other), *this; }
    const linker_utils_delta *data() const noexcept { return list_.get(); }
    size_t size() const noexcept { return size_; }
    /* Those of deletions: `linker_utils_deltas_create`; LINKER_UTILS_OUT_OF_MEMORY. */
    static result<deltas> create(span<const linker_utils_deletion> deletions) noexcept {
        return made(deletions.size(), [&](deltas &to, size_t *faulty) {
            return linker_utils_deltas_create(deletions.data(), deletions.size(), to.list_.get(),
                                              to.size_, faulty);
        });
    }
    /* Those of a run: `linker_utils_run_deltas`; LINKER_UTILS_OUT_OF_MEMORY. */
    static result<deltas> of_run(const linker_utils_run &run,
                                 span<const uint64_t> kept) noexcept {
        return made(run.items_len, [&](deltas &to, size_t *) {
            linker_utils_relaxed relaxed{};
            relaxed.kept = const_cast<uint64_t *>(kept.data()); // which it only reads
            relaxed.kept_len = kept.size();
            return linker_utils_run_deltas(&run, &relaxed, to.list_.get(), to.size_, &to.size_);
        });
    }
    /* Those of further deletions too, in a list of their own: `linker_utils_deltas_merge`. */
    result<deltas> merged(span<const linker_utils_deletion> additional) const noexcept {
        return made(size_ + additional.size(), [&](deltas &to, size_t *faulty) {
            const linker_utils_merge merge = {additional.data(), additional.size(), to.list_.get(),
                                              to.size_};
            return linker_utils_deltas_merge(data(), size_, &merge, faulty);
        });
    }
    /* How many bytes are deleted: `linker_utils_deltas_total_deleted`. */
    uint64_t total_deleted() const noexcept {
        return linker_utils_deltas_total_deleted(data(), size_);
    }
    /* The output offset: `linker_utils_deltas_input_to_output`. */
    uint64_t input_to_output(uint64_t offset) const noexcept {
        return linker_utils_deltas_input_to_output(data(), size_, offset);
    }
    /* The input offset: `linker_utils_deltas_output_to_input`. */
    result<uint64_t> output_to_input(uint64_t offset) const noexcept {
        uint64_t input = 0;
        return {{linker_utils_deltas_output_to_input(data(), size_, offset, &input)}, input};
    }

private:
    void swap(deltas &other) noexcept {
        std::swap(list_, other.list_);
        std::swap(size_, other.size_);
    }
    template <class Write> static result<deltas> made(size_t size, Write write) noexcept {
        deltas to;
        to.list_.reset(new (std::nothrow) linker_utils_delta[size]);
        if (!to.list_) return {{LINKER_UTILS_OUT_OF_MEMORY}, std::move(to)};
        to.size_ = size;
        size_t faulty = no_index;
        outcome ended = {write(to, &faulty), faulty};
        return {ended, std::move(to)};
    }
    std::unique_ptr<linker_utils_delta[]> list_;
    size_t size_ = 0;
};

/* Writes the items of relocations, and returns how many there are: `linker_utils_section_items`. */
inline result<size_t> section_items(uint16_t machine, const linker_utils_section &section,
                                    span<const linker_utils_rela> relocations,
                                    span<linker_utils_item> items, span<size_t> makers) noexcept {
    size_t faulty = no_index;
    linker_utils_items made = {items.data(), items.size(), makers.data(), makers.size(), 0};
    outcome ended = {linker_utils_section_items(machine, &section, relocations.data(),
                                                relocations.size(), &made, &faulty), faulty};
    return {ended, made.items_used};
}

/* Chooses what becomes shorter in a run: `linker_utils_relax`. */
inline outcome relax(const linker_utils_run &run, span<uint8_t> shapes, span<uint64_t> kept,
                     span<size_t> places, span<uint64_t> freed) noexcept {
    size_t faulty = no_index;
    const linker_utils_relaxed relaxed = {shapes.data(), shapes.size(), kept.data(), kept.size(),
                                          freed.data(), freed.size(), places.data(),
                                          places.size()};
    return {linker_utils_relax(&run, &relaxed, &faulty), faulty};
}

/* How many bytes of a section are kept: `linker_utils_packed_run_len`. */
inline size_t packed_run_len(const linker_utils_section &section,
                             const linker_utils_run &run) noexcept {
    return linker_utils_packed_run_len(&section, &run);
}

/* Writes the kept bytes of a section: `linker_utils_pack_run`. */
inline outcome pack_run(uint16_t machine, const linker_utils_section &section,
                        const linker_utils_run &run, span<uint8_t> packed) noexcept {
    size_t faulty = no_index;
    return {linker_utils_pack_run(machine, &section, &run, packed.data(), packed.size(), &faulty),
            faulty};
}

} // namespace linker_utils

#endif
