// Registers that two threads share without waiting, and boards that several share, as C++ objects: each ends its side or place when
// it goes, and may be moved.
//
//   auto [writer, reader] = nidzaru::make(limits{0.0, 9.5});     both sides of a register that holds these limits
//   writer.write(item)                                           0, or a status of nidzaru.h
//   reader.read(item, number)                                    one whole record, and its number
//   reader.latest()                                              one whole record, if there is a side
//   reader.has_news()                                            whether `latest` would give another record than the last one
//   reader.news()                                                one whole record, if it is another one than the last
//   reader.hold()                                                where one whole record lies, over a triple buffer
//   reader.hold_news()                                           the same, if it is another one than the last
//
//   auto [sensor, readers] = nidzaru::make_fan<3>(limits{0.0, 9.5})   one writer, and an array of three readers
//   sensor.write(item)                                           puts the record into each reader's register, under one number
//
//   auto places = nidzaru::make_board<3>(plan{})                 the three places of a board that holds this plan
//   places[0].write(item, stamp)                                 puts the record there, and gives its stamp
//   places[1].read(item, stamp), places[1].latest()              one whole record, and its stamp
//   places[1].read_since(least, item, stamp)                     the same, and NIDZARU_OLDER where its stamp is smaller
//   places[1].news()                                             one whole record, if its stamp is greater than the last one
//
// `if (writer)`, `if (reader)` and `if (places[0])` ask whether there is a side.
//
//   nidzaru::writer<limits>::make_bytes(), make_requests()       what a make asks nidzaru_allocate for, in bytes and in requests: constants
//   nidzaru::fan_writer<limits>::make_bytes(3), ..               the same of a fan with three readers
//   nidzaru::place<plan>::make_bytes(3), ..                      the same of a board with three places
//
// The record's type is neither const nor volatile, trivially copyable, and of at most 1048576 bytes, on a board 4096. It may be aligned to
// 16, 32, 64 and more.
#ifndef NIDZARU_HPP
#define NIDZARU_HPP
#if __cplusplus < 201703L
#error "nidzaru.hpp: compile this as C++17 or later"
#else
#include "nidzaru.h"

#include <array>
#if defined(__cpp_impl_three_way_comparison) && __has_include(<compare>)
#include <compare>
#endif
#include <cstdint>
#include <cstring>
#include <memory>
#include <new>
#include <optional>
#include <stdexcept>
#include <type_traits>
#include <utility>

namespace nidzaru {

enum class cell { four_slot, triple };

template <class T, cell C> class writer;
template <class T, cell C> class reader;
template <class T, cell C = cell::four_slot> using sides = std::pair<writer<T, C>, reader<T, C>>;

template <class T, cell C> [[nodiscard]] std::optional<sides<T, C>> try_make(const T &first) noexcept;

template <class T, cell C> class fan_writer;
template <class T, std::size_t N, cell C = cell::four_slot> using fan = std::pair<fan_writer<T, C>, std::array<reader<T, C>, N>>;

namespace detail {

// Makes a fan as its sides, and gives the status.
struct fan_making {
    template <class T, std::size_t N, cell C> static int make(const T &first, fan<T, N, C> &made) noexcept;
};

// How a `T` lies in a record of the library, of this size.
template <class T, cell C, std::size_t bytes = NIDZARU_SIZE(sizeof(T))> struct record {
    static_assert(NIDZARU_PLAIN(T), "a record of a register or board is neither const nor volatile");
    static_assert(std::is_trivially_copyable<T>::value, "a record of a register or board is trivially copyable");
    static_assert(!std::is_array<T>::value, "a record of a register or board is no array: std::array may be one");
    static_assert(sizeof(T) <= bytes, "a record of a register has at most 1048576 bytes, and of a board at most 4096 bytes");
    static constexpr std::size_t size = bytes;
    static constexpr bool passes = !NIDZARU_WATCHED && sizeof(T) == bytes && alignof(T) >= 8;
    static constexpr bool in_place = passes && !shares_tail<T>::value;
    static constexpr int triple = C == cell::triple ? 1 : 0;
    std::uint64_t words[size / 8] = {};

    record() = default;
    explicit record(const T &item) noexcept { nidzaru_copy(words, std::addressof(item), sizeof(T)); }
};

// A handle that may be moved, and has no side from then on.
class side {
  public:
    side() = default;
    side(side &&from) noexcept { take(from); }
    side(const side &) = delete;
    side &operator=(const side &) = delete;

    // Whether there is a side.
    [[nodiscard]] explicit operator bool() const noexcept { return handle.side.live != 0; }

  protected:
    ~side() = default;
    // (the handle is emptied first, as no end takes a side that was cut off; the other one is where it was made, so no move is refused)
    void take(side &from) noexcept {
        handle = {{0, nullptr}, nullptr, nullptr};
        (void)!nidzaru_move_handle(&handle, &from.handle);
    }
    nidzaru_handle handle = {{0, nullptr}, nullptr, nullptr};
};

// What keeps the handles of two threads in different lines of the cache.
struct distance {
    char apart[NIDZARU_APART] = {};
};

template <class> inline constexpr bool never = false;

} // namespace detail

// The right to write: one thread uses it at a time.
template <class T, cell C = cell::four_slot> class writer : detail::side {
    using record = detail::record<T, C>;
    static_assert(record::size > 0, "the library has records of this size");

  public:
    writer() = default;
    writer(writer &&) = default;
    using detail::side::operator bool;
    writer &operator=(writer &&from) noexcept {
        if (this != std::addressof(from)) {
            end();
            take(from);
        }
        return *this;
    }
    ~writer() { end(); }

    // Shows the record to the reader, under the next number. What this thread did before comes before what the reading thread
    // does once it has read this number, or a greater one.
    [[nodiscard]] int write(const T &item) noexcept {
        if constexpr (record::passes) {
            return nidzaru_sized_write(record::triple, record::size, &handle, std::addressof(item));
        } else {
            record copy(item);
            return nidzaru_sized_write(record::triple, record::size, &handle, copy.words);
        }
    }

    // Where the next record can be filled in: the slot in which it will lie, with an older record, or the opening; null where there is no
    // side. Until the next call of this writer, which is `publish()`, or a write of another record. Of triple buffers alone.
    [[nodiscard]] T *loan() noexcept {
        static_assert(C == cell::triple, "a four-slot cell's records are written by a copy: a triple buffer has loan()");
        static_assert(alignof(T) <= 8, "a record that is filled where it lies is aligned to at most 8");
        void *at = nullptr;
        if (nidzaru_sized_loan(record::size, &handle, &at)) return nullptr;
        return std::launder(static_cast<T *>(at));
    }

    // Shows the record in the slot to the reader, under the next number, as `write` does. Without a loan before it's an older one again.
    [[nodiscard]] int publish() noexcept {
        static_assert(C == cell::triple, "a four-slot cell's records are written by a copy: a triple buffer has publish()");
        return nidzaru_sized_publish(record::size, &handle);
    }

    // Ends the side before the object goes. The reader keeps the last record.
    int end() noexcept { return nidzaru_sized_end_writer(record::triple, record::size, &handle); }

    // What a make of such a register asks nidzaru_allocate for: exactly, if the library is of this header's release.
    static constexpr std::size_t make_bytes() noexcept { return NIDZARU_REGISTER_BYTES(record::triple, record::size); }
    static constexpr std::size_t make_requests() noexcept { return NIDZARU_REGISTER_REQUESTS(record::size); }

    template <class U, cell D> friend std::optional<sides<U, D>> try_make(const U &first) noexcept;

  private:
    [[maybe_unused]] detail::distance distance = {};
};

// The right to read: one thread uses it at a time.
template <class T, cell C = cell::four_slot> class reader : detail::side {
    using record = detail::record<T, C>;
    static_assert(record::size > 0, "the library has records of this size");

  public:
    reader() = default;
    reader(reader &&) = default;
    using detail::side::operator bool;
    reader &operator=(reader &&from) noexcept {
        if (this != std::addressof(from)) {
            end();
            take(from);
            last = from.last;
        }
        return *this;
    }
    ~reader() { end(); }

    // Gives one whole record, and then its number, which is never below the last one. The record is copied to where `item` lies, and
    // nothing beside it is written, whatever keeps something in its tail.
    [[nodiscard]] int read(T &item, std::uint64_t &number) noexcept {
        static_assert(record::in_place || std::is_copy_assignable<T>::value,
                      "a read into a record assigns it: where it can't be assigned there is latest()");
        int status;
        if constexpr (record::in_place) {
            status = nidzaru_sized_read(record::triple, record::size, &handle, std::addressof(item), &last);
        } else {
            record copy;
            status = nidzaru_sized_read(record::triple, record::size, &handle, copy.words, &last);
            if (!status) detail::give(std::addressof(item), copy.words);
        }
        if (!status) number = last;
        return status;
    }

    // One whole record, whose number is `number()` then. Nothing where there is no side.
    [[nodiscard]] std::optional<T> latest() noexcept {
        record copy;
        if (nidzaru_sized_read(record::triple, record::size, &handle, copy.words, &last)) return std::nullopt;
        return std::optional<T>(std::in_place, detail::unmade<T>(copy.words).value);
    }

    // One whole record, if it has a greater number than the last one. Nothing is copied where there is none.
    [[nodiscard]] std::optional<T> news() noexcept { return has_news() ? latest() : std::nullopt; }

    // Gives the number that a read would give, without the record. No later read gives a number below it.
    [[nodiscard]] int look(std::uint64_t &number) noexcept { return nidzaru_sized_look(record::triple, record::size, &handle, &number); }

    // Where one whole record lies, whose number is `number()` then; null where there is no side. No write goes there until the next call
    // of this reader, but for `number()`: from then on nothing is read through it. Of triple buffers alone.
    [[nodiscard]] const T *hold() noexcept {
        static_assert(C == cell::triple, "a four-slot cell's records are read into place: a triple buffer has hold()");
        static_assert(alignof(T) <= 8, "a record that is read where it lies is aligned to at most 8");
        const void *at = nullptr;
        if (nidzaru_sized_hold(record::size, &handle, &at, &last)) return nullptr;
        return std::launder(static_cast<const T *>(at));
    }

    // The same, if there is a greater number than the last one; else null, and what was held before isn't held any more. A call of its own.
    [[nodiscard]] const T *hold_news() noexcept {
        const std::uint64_t before = last;
        const T *held = hold();
        return last > before ? held : nullptr;
    }

    // Whether a read would give a greater number than the last read: than 0, the opening's, where there was none.
    [[nodiscard]] bool has_news() noexcept {
        std::uint64_t number = 0;
        return !look(number) && number > last;
    }

    // The number of the record that was read last.
    [[nodiscard]] std::uint64_t number() const noexcept { return last; }

    // Ends the side before the object goes. Writes go on.
    int end() noexcept { return nidzaru_sized_end_reader(record::triple, record::size, &handle); }

    template <class U, cell D> friend std::optional<sides<U, D>> try_make(const U &first) noexcept;

  private:
    friend struct detail::fan_making;
    std::uint64_t last = 0;
    [[maybe_unused]] detail::distance distance = {};
};

// Both sides of a new register that holds `first` as number 0. Nothing where memory is refused.
template <class T, cell C> std::optional<sides<T, C>> try_make(const T &first) noexcept {
    using record = detail::record<T, C>;
    std::optional<sides<T, C>> both(std::in_place);
    int status;
    if constexpr (record::passes) {
        status = nidzaru_sized_make(record::triple, record::size, std::addressof(first), &both->first.handle, &both->second.handle);
    } else {
        record copy(first);
        status = nidzaru_sized_make(record::triple, record::size, copy.words, &both->first.handle, &both->second.handle);
    }
    if (status) return std::nullopt;
    return both;
}

// The same, and std::bad_alloc is thrown where memory is refused. A program without exceptions takes `try_make`.
template <class T, cell C> [[nodiscard]] sides<T, C> make([[maybe_unused]] const T &first) {
#ifdef __cpp_exceptions
    auto both = nidzaru::try_make<T, C>(first);
    if (!both) throw std::bad_alloc();
    return std::move(*both);
#else
    static_assert(detail::never<T>, "make throws where memory is refused: without exceptions there is try_make");
#endif
}

// (with the namespace, since a record's own may have functions of these names)
template <class T> [[nodiscard]] sides<T> make(const T &first) { return nidzaru::make<T, cell::four_slot>(first); }
template <class T> [[nodiscard]] sides<T, cell::triple> make_triple(const T &first) { return nidzaru::make<T, cell::triple>(first); }
template <class T> [[nodiscard]] std::optional<sides<T>> try_make(const T &first) noexcept {
    return nidzaru::try_make<T, cell::four_slot>(first);
}
template <class T> [[nodiscard]] std::optional<sides<T, cell::triple>> try_make_triple(const T &first) noexcept {
    return nidzaru::try_make<T, cell::triple>(first);
}

// The right to write to several readers, to each in a register of its own: one thread uses it at a time. Between readers there is no order:
// while a write runs, one may have the record and another one not yet. A place at a board knows such an order.
template <class T, cell C = cell::four_slot> class fan_writer : detail::side {
    using record = detail::record<T, C>;
    static_assert(record::size > 0, "the library has records of this size");

  public:
    fan_writer() = default;
    fan_writer(fan_writer &&) = default;
    using detail::side::operator bool;
    fan_writer &operator=(fan_writer &&from) noexcept {
        if (this != std::addressof(from)) {
            end();
            take(from);
        }
        return *this;
    }
    ~fan_writer() { end(); }

    // Shows the record to each reader, under the next number. What this thread did before comes before what a reading thread does once it
    // has read this number, or a greater one.
    [[nodiscard]] int write(const T &item) noexcept {
        if constexpr (record::passes) {
            return nidzaru_fan_write(record::triple, record::size, &handle, std::addressof(item));
        } else {
            record copy(item);
            return nidzaru_fan_write(record::triple, record::size, &handle, copy.words);
        }
    }

    // Ends the side before the object goes. Each reader keeps the last record.
    int end() noexcept { return nidzaru_fan_end(record::triple, record::size, &handle); }

    // What a make of a fan with so many readers asks nidzaru_allocate for.
    static constexpr std::size_t make_bytes(std::size_t readers) noexcept {
        return NIDZARU_FAN_BYTES(readers) + readers * writer<T, C>::make_bytes();
    }
    static constexpr std::size_t make_requests(std::size_t readers) noexcept { return 1 + readers * writer<T, C>::make_requests(); }

  private:
    friend struct detail::fan_making;
    [[maybe_unused]] detail::distance distance = {};
};

template <class T, std::size_t N, cell C> int detail::fan_making::make(const T &first, fan<T, N, C> &made) noexcept {
    static_assert(N >= 1, "a fan has at least one reader");
    using record = detail::record<T, C>;
    nidzaru_handle *handles[N] = {};
    for (std::size_t i = 0; i < N; i++) handles[i] = &made.second[i].handle;
    if constexpr (record::passes) {
        return nidzaru_fan_make(record::triple, record::size, std::addressof(first), &made.first.handle, handles, N);
    } else {
        record copy(first);
        return nidzaru_fan_make(record::triple, record::size, copy.words, &made.first.handle, handles, N);
    }
}

// The writer and the N readers of a new fan that holds `first` as number 0. Nothing where memory is refused.
template <std::size_t N, cell C = cell::four_slot, class T>
[[nodiscard]] std::optional<fan<T, N, C>> try_make_fan(const T &first) noexcept {
    std::optional<fan<T, N, C>> made(std::in_place);
    if (detail::fan_making::make<T, N, C>(first, *made)) return std::nullopt;
    return made;
}

// The same, and std::bad_alloc is thrown where memory is refused.
template <std::size_t N, cell C = cell::four_slot, class T> [[nodiscard]] fan<T, N, C> make_fan([[maybe_unused]] const T &first) {
#ifdef __cpp_exceptions
    fan<T, N, C> made;
    if (detail::fan_making::make<T, N, C>(first, made)) throw std::bad_alloc();
    return made;
#else
    static_assert(detail::never<T>, "make_fan throws where memory is refused: without exceptions there is try_make_fan");
#endif
}

// The stamp of a record of a board: one stamp is one record, and the opening has 0.0.
struct stamp : nidzaru_stamp {
    constexpr stamp() noexcept : nidzaru_stamp{0, 0} {}
    constexpr stamp(std::uint64_t its_tag, std::uint64_t its_writer) noexcept : nidzaru_stamp{its_tag, its_writer} {}
    friend bool operator==(const stamp &a, const stamp &b) noexcept { return nidzaru_stamp_compare(a, b) == 0; }
#ifdef __cpp_lib_three_way_comparison
    friend std::strong_ordering operator<=>(const stamp &a, const stamp &b) noexcept {
        const int order = nidzaru_stamp_compare(a, b), same = 0;
        return order <=> same;
    }
#else
    friend bool operator!=(const stamp &a, const stamp &b) noexcept { return nidzaru_stamp_compare(a, b) != 0; }
    friend bool operator<(const stamp &a, const stamp &b) noexcept { return nidzaru_stamp_compare(a, b) < 0; }
    friend bool operator>(const stamp &a, const stamp &b) noexcept { return nidzaru_stamp_compare(a, b) > 0; }
    friend bool operator<=(const stamp &a, const stamp &b) noexcept { return nidzaru_stamp_compare(a, b) <= 0; }
    friend bool operator>=(const stamp &a, const stamp &b) noexcept { return nidzaru_stamp_compare(a, b) >= 0; }
#endif
};

template <class T, cell C> class place;
template <class T, std::size_t N, cell C = cell::four_slot> using places = std::array<place<T, C>, N>;

namespace detail {

// The same of a board.
template <class T, cell C> using board_record = record<T, C, NIDZARU_BOARD_SIZE(sizeof(T))>;

// Makes a board as its places, and gives the status.
struct board_making {
    template <class T, std::size_t N, cell C> static int make(const T &first, std::uint64_t limit, places<T, N, C> &made) noexcept;
};

} // namespace detail

// A place at a board, the right to write and to read as one of its tasks: one thread uses it at a time.
template <class T, cell C = cell::four_slot> class place : detail::side {
    using record = detail::board_record<T, C>;
    static_assert(record::size > 0, "the library has records of this size");

  public:
    place() = default;
    place(place &&) = default;
    using detail::side::operator bool;
    place &operator=(place &&from) noexcept {
        if (this != std::addressof(from)) {
            end();
            take(from);
            last = from.last;
        }
        return *this;
    }
    ~place() { end(); }

    // Puts the record under the next stamp above all that this place sees, and gives the stamp.
    [[nodiscard]] int write(const T &item, stamp &given) noexcept {
        int status;
        if constexpr (record::passes) {
            status = nidzaru_sized_board_write(record::triple, record::size, &handle, std::addressof(item), &last);
        } else {
            record copy(item);
            status = nidzaru_sized_board_write(record::triple, record::size, &handle, copy.words, &last);
        }
        if (!status) given = last;
        return status;
    }

    // Gives one whole record, and then its stamp, which is never below that of any call of this place before.
    [[nodiscard]] int read(T &item, stamp &given) noexcept {
        static_assert(record::in_place || std::is_copy_assignable<T>::value,
                      "a read into a record assigns it: where it can't be assigned there is latest()");
        int status;
        if constexpr (record::in_place) {
            status = nidzaru_sized_board_read(record::triple, record::size, &handle, std::addressof(item), &last);
        } else {
            record copy;
            status = nidzaru_sized_board_read(record::triple, record::size, &handle, copy.words, &last);
            if (!status) detail::give(std::addressof(item), copy.words);
        }
        if (!status) given = last;
        return status;
    }

    // The same; NIDZARU_OLDER where the answer, which is given, has a smaller stamp than this one.
    [[nodiscard]] int read_since(const stamp &least, T &item, stamp &given) noexcept {
        static_assert(std::is_copy_assignable<T>::value, "a read into a record assigns it");
        record copy;
        int status = nidzaru_sized_board_read_since(record::triple, record::size, &handle, least, copy.words, &last);
        if (!status || status == NIDZARU_OLDER) {
            detail::give(std::addressof(item), copy.words);
            given = last;
        }
        return status;
    }

    // One whole record, whose stamp is `last_stamp()` then. Nothing where there is no place.
    [[nodiscard]] std::optional<T> latest() noexcept {
        record copy;
        if (nidzaru_sized_board_read(record::triple, record::size, &handle, copy.words, &last)) return std::nullopt;
        return std::optional<T>(std::in_place, detail::unmade<T>(copy.words).value);
    }

    // Whether a read would give a greater stamp than that of the record that was written or read last. This is a call of the board.
    [[nodiscard]] bool has_news() noexcept {
        record copy;
        stamp given;
        return !nidzaru_sized_board_read(record::triple, record::size, &handle, copy.words, &given) && given > last;
    }

    // One whole record, if it has a greater stamp than the one that was written or read last.
    [[nodiscard]] std::optional<T> news() noexcept {
        const stamp before = last;
        auto item = latest();
        return last > before ? item : std::nullopt;
    }

    // The stamp of the record that was written or read last.
    [[nodiscard]] stamp last_stamp() const noexcept { return last; }

    // Ends the place before the object goes. The others go on.
    int end() noexcept { return nidzaru_sized_board_end(record::triple, record::size, &handle); }

    // What a make of a board with so many places asks nidzaru_allocate for.
    static constexpr std::size_t make_bytes(std::size_t places) noexcept {
        return NIDZARU_BOARD_BYTES(record::triple, record::size, places);
    }
    static constexpr std::size_t make_requests(std::size_t places) noexcept { return NIDZARU_BOARD_REQUESTS(places); }

  private:
    friend struct detail::board_making;
    stamp last = {};
    [[maybe_unused]] detail::distance distance = {};
};

template <class T, std::size_t N, cell C>
int detail::board_making::make(const T &first, std::uint64_t limit, places<T, N, C> &made) noexcept {
    static_assert(2 <= N && N <= 16, "a board has 2 to 16 places");
    using record = detail::board_record<T, C>;
    record copy(first);
    nidzaru_handle *handles[N] = {};
    for (std::size_t i = 0; i < N; i++) handles[i] = &made[i].handle;
    return nidzaru_sized_board_make(record::triple, record::size, copy.words, limit, handles, N);
}

// The places of a new board of N tasks that holds `first`, and whose tags end at the limit. Nothing where memory is refused, or where
// the limit isn't at least 1 and below 2^64 - 1.
template <std::size_t N, cell C = cell::four_slot, class T>
[[nodiscard]] std::optional<places<T, N, C>> try_make_board(const T &first, std::uint64_t limit = NIDZARU_UNLIMITED) noexcept {
    std::optional<places<T, N, C>> made(std::in_place);
    if (detail::board_making::make<T, N, C>(first, limit, *made)) return std::nullopt;
    return made;
}

// The same. Throws std::bad_alloc where memory is refused, and std::invalid_argument at such a limit.
template <std::size_t N, cell C = cell::four_slot, class T>
[[nodiscard]] places<T, N, C> make_board([[maybe_unused]] const T &first, [[maybe_unused]] std::uint64_t limit = NIDZARU_UNLIMITED) {
#ifdef __cpp_exceptions
    places<T, N, C> made;
    int status = detail::board_making::make<T, N, C>(first, limit, made);
    if (status == NIDZARU_LIMIT) throw std::invalid_argument("a board's limit is at least 1 and below 2^64 - 1");
    if (status) throw std::bad_alloc();
    return made;
#else
    static_assert(detail::never<T>, "make_board throws where memory is refused: without exceptions there is try_make_board");
#endif
}

} // namespace nidzaru
#endif
#endif
