// Registers and boards between processes as C++ objects. nidzaru_shared.h says what holds of a block and which statuses there are; programs
// in C, C++ and Rust attach to the same one. One file of a program defines NIDZARU_SHARED_IMPLEMENTATION before it includes this.
//
//   struct plant {                                               what the block begins with, all zeros
//       static constexpr const char *shared_name = "struct plant";   what C calls it
//       nidzaru::shared_register<reading> readings;
//       nidzaru::shared_board<plan, 3> plans;
//   };
//
//   nidzaru::shared_block<plant> block;                          the block goes from this process with the object
//   block.create("/plant", 1 << 20)                              0, or a status; without a name it is for children by fork alone
//   block->readings.make(block, reading{})                       makes the register in the block
//   block.open(), block.attach("/plant")                         from the first on others can do the second
//
//   nidzaru::shared_writer<reading> writer;                      a claim of this thread's, which the object yields when it goes
//   block->readings.claim_writer(block, writer)                  0, or a status
//   writer.write(item)                                           as nidzaru::writer does
//   block->readings.recover_writer(block, writer)                also from an owner that died within a call
//   block->plans.claim(block, 2, place)                          a nidzaru::shared_place<plan>
//
// A claim stays in its thread, and goes before its block.
#ifndef NIDZARU_SHARED_HPP
#define NIDZARU_SHARED_HPP
#include "nidzaru.hpp"
#include "nidzaru_shared.h"

namespace nidzaru {

template <class Root> class shared_block;
template <class T, cell C> class shared_register;
template <class T, std::size_t N, cell C> class shared_board;

namespace detail {

// A handle in a block, with a line of the cache of its own.
struct shared_handle {
    nidzaru_handle handle;
    char apart[NIDZARU_APART];
};

// A claim of a side or place, until the object goes.
class claimed {
  public:
    claimed() = default;
    claimed(claimed &&from) noexcept { take(from); }
    claimed &operator=(claimed &&from) noexcept {
        if (this != std::addressof(from)) {
            yield();
            take(from);
        }
        return *this;
    }

    // Whether this thread has the claim.
    [[nodiscard]] explicit operator bool() const noexcept { return at != nullptr; }

    // Gives the claim back before the object goes. Another thread's NIDZARU_SHARED_NOT_OWNER.
    int yield() noexcept {
        if (!at) return NIDZARU_SHARED_NOT_OWNER;
        const int status = nidzaru_item_yield(block, claim);
        if (!status) at = nullptr;
        return status;
    }

  protected:
    ~claimed() { yield(); }
    void take(claimed &from) noexcept {
        block = from.block;
        claim = from.claim;
        at = std::exchange(from.at, nullptr);
    }
    // What is to be claimed stands nowhere yet, and else is given back before.
    int put(nidzaru_shared *its_block, nidzaru_claim *its_claim, nidzaru_handle *handle, int status) noexcept {
        if (status) return status;
        block = its_block;
        claim = its_claim;
        at = handle;
        return NIDZARU_DONE;
    }

    nidzaru_handle *at = nullptr;

  private:
    nidzaru_shared *block = nullptr;
    nidzaru_claim *claim = nullptr;
};

} // namespace detail

// The right to write by a side in a block.
template <class T, cell C = cell::four_slot> class shared_writer : public detail::claimed {
    using record = detail::record<T, C>;

  public:
    [[nodiscard]] int write(const T &item) noexcept {
        if (!at) return NIDZARU_ENDED;
        if constexpr (record::passes) {
            return nidzaru_sized_write(record::triple, record::size, at, std::addressof(item));
        } else {
            record copy(item);
            return nidzaru_sized_write(record::triple, record::size, at, copy.words);
        }
    }

  private:
    friend class shared_register<T, C>;
};

// The right to read by a side in a block. Numbers are compared with those that this claim read.
template <class T, cell C = cell::four_slot> class shared_reader : public detail::claimed {
    using record = detail::record<T, C>;

  public:
    [[nodiscard]] int read(T &item, std::uint64_t &number) noexcept {
        static_assert(std::is_copy_assignable<T>::value, "a read into a record assigns it: where it can't be assigned there is latest()");
        record copy;
        const int status = read_words(copy.words);
        if (status) return status;
        detail::give(std::addressof(item), copy.words);
        number = last;
        return status;
    }

    [[nodiscard]] std::optional<T> latest() noexcept {
        record copy;
        if (read_words(copy.words)) return std::nullopt;
        return std::optional<T>(std::in_place, detail::unmade<T>(copy.words).value);
    }

    [[nodiscard]] int look(std::uint64_t &number) noexcept {
        return at ? nidzaru_sized_look(record::triple, record::size, at, &number) : NIDZARU_ENDED;
    }

    [[nodiscard]] bool has_news() noexcept {
        std::uint64_t number = 0;
        return !look(number) && number > last;
    }

    [[nodiscard]] std::optional<T> news() noexcept { return has_news() ? latest() : std::nullopt; }

    // The number of the record that this claim read last.
    [[nodiscard]] std::uint64_t number() const noexcept { return last; }

  private:
    friend class shared_register<T, C>;
    int read_words(std::uint64_t *words) noexcept {
        return at ? nidzaru_sized_read(record::triple, record::size, at, words, &last) : NIDZARU_ENDED;
    }
    std::uint64_t last = 0;
};

// The right to write and to read by a place in a block.
template <class T, cell C = cell::four_slot> class shared_place : public detail::claimed {
    using record = detail::board_record<T, C>;

  public:
    [[nodiscard]] int write(const T &item, stamp &given) noexcept {
        if (!at) return NIDZARU_ENDED;
        record copy(item);
        const int status = nidzaru_sized_board_write(record::triple, record::size, at, copy.words, &last);
        if (!status) given = last;
        return status;
    }

    [[nodiscard]] int read(T &item, stamp &given) noexcept {
        static_assert(std::is_copy_assignable<T>::value, "a read into a record assigns it: where it can't be assigned there is latest()");
        record copy;
        const int status = read_words(copy.words);
        if (status) return status;
        detail::give(std::addressof(item), copy.words);
        given = last;
        return status;
    }

    [[nodiscard]] std::optional<T> latest() noexcept {
        record copy;
        if (read_words(copy.words)) return std::nullopt;
        return std::optional<T>(std::in_place, detail::unmade<T>(copy.words).value);
    }

    // One whole record, if it has a greater stamp than what this claim wrote or read last. A call of the board.
    [[nodiscard]] std::optional<T> news() noexcept {
        const stamp before = last;
        auto item = latest();
        return last > before ? item : std::nullopt;
    }

    // The stamp of the record that this claim wrote or read last.
    [[nodiscard]] stamp last_stamp() const noexcept { return last; }

  private:
    template <class, std::size_t, cell> friend class shared_board;
    int read_words(std::uint64_t *words) noexcept {
        return at ? nidzaru_sized_board_read(record::triple, record::size, at, words, &last) : NIDZARU_ENDED;
    }
    stamp last = {};
};

// A register in a block, with the claims of its sides. C calls it NAME_shared, below NIDZARU_SHARED_REGISTER(NAME).
template <class T, cell C = cell::four_slot> class shared_register {
    using record = detail::record<T, C>;

  public:
    // Makes the register, which holds `first`. NIDZARU_IN_USE where it is made, or another thread makes it.
    template <class Root> [[nodiscard]] int make(shared_block<Root> &block, const T &first) noexcept {
        record copy(first);
        int status = nidzaru_item_begin(block.at(), &item, claims, 2, type());
        if (status) return status;
        status = nidzaru_sized_make(record::triple, record::size, copy.words, &sides[0].handle, &sides[1].handle);
        item.writer = static_cast<std::uint16_t>(sides[0].handle.side.live);
        item.reader = static_cast<std::uint16_t>(sides[1].handle.side.live);
        return nidzaru_item_end(&item, status);
    }

    // How many bytes of the block that takes, exactly.
    static constexpr std::size_t make_bytes() noexcept {
        return writer<T, C>::make_bytes() + NIDZARU_SHARED_PART * writer<T, C>::make_requests();
    }

    // Makes this thread the owner of the writing side, and `writer` its claim. If that has another one, it is yielded first.
    template <class Root> [[nodiscard]] int claim_writer(shared_block<Root> &block, shared_writer<T, C> &writer) noexcept {
        writer.yield();
        return writer.put(block.at(), &claims[0], &sides[0].handle,
                          nidzaru_item_claim(block.at(), &item, &claims[0], &sides[0].handle, type()));
    }
    template <class Root> [[nodiscard]] int claim_reader(shared_block<Root> &block, shared_reader<T, C> &reader) noexcept {
        reader = shared_reader<T, C>();
        return reader.put(block.at(), &claims[1], &sides[1].handle,
                          nidzaru_item_claim(block.at(), &item, &claims[1], &sides[1].handle, type()));
    }

    // The same, and takes over from an owner that died within a call. Over a triple buffer NIDZARU_SHARED_LOST there.
    template <class Root> [[nodiscard]] int recover_writer(shared_block<Root> &block, shared_writer<T, C> &writer) noexcept {
        writer.yield();
        return writer.put(block.at(), &claims[0], &sides[0].handle, recover(block, 0));
    }
    template <class Root> [[nodiscard]] int recover_reader(shared_block<Root> &block, shared_reader<T, C> &reader) noexcept {
        reader = shared_reader<T, C>();
        return reader.put(block.at(), &claims[1], &sides[1].handle, recover(block, 1));
    }

  private:
    template <class Root> int recover(shared_block<Root> &block, int side) noexcept {
        const std::size_t size = C == cell::triple ? 0 : record::size;
        return nidzaru_item_recover(block.at(), &item, &claims[side], &sides[side].handle, type(), size, side == 0);
    }
    static std::uint64_t type() noexcept {
        return nidzaru_shared_type(C == cell::triple ? "triple register" : "register", sizeof(T), alignof(T));
    }

    nidzaru_item item;
    nidzaru_claim claims[2];
    char apart[NIDZARU_APART];
    detail::shared_handle sides[2];
};

// A board of N places in a block, with their claims. C calls it NAME_shared, below NIDZARU_SHARED_BOARD(NAME, N).
template <class T, std::size_t N, cell C = cell::four_slot> class shared_board {
    static_assert(2 <= N && N <= 16, "a board has 2 to 16 places");
    using record = detail::board_record<T, C>;

  public:
    // Makes the board, which holds `first`. NIDZARU_IN_USE where it is made, or another thread makes it.
    template <class Root> [[nodiscard]] int make(shared_block<Root> &block, const T &first) noexcept {
        record copy(first);
        nidzaru_handle *handles[N] = {};
        for (std::size_t k = 0; k < N; k++) handles[k] = &places[k].handle;
        const int status = nidzaru_item_begin(block.at(), &item, claims, N, type());
        if (status) return status;
        return nidzaru_item_end(&item, nidzaru_sized_board_make(record::triple, record::size, copy.words, NIDZARU_UNLIMITED, handles, N));
    }

    // How many bytes of the block that takes, exactly.
    static constexpr std::size_t make_bytes() noexcept {
        return place<T, C>::make_bytes(N) + NIDZARU_SHARED_PART * place<T, C>::make_requests(N);
    }

    // Makes this thread the owner of the place with this number, from 0, and `place` its claim.
    template <class Root> [[nodiscard]] int claim(shared_block<Root> &block, std::size_t number, shared_place<T, C> &place) noexcept {
        if (number >= N) return NIDZARU_PROCESSES;
        place = shared_place<T, C>();
        return place.put(block.at(), &claims[number], &places[number].handle,
                         nidzaru_item_claim(block.at(), &item, &claims[number], &places[number].handle, type()));
    }

  private:
    static std::uint64_t type() noexcept {
        return nidzaru_shared_type(C == cell::triple ? "triple board" : "board", sizeof(T), alignof(T)) + N;
    }

    nidzaru_item item;
    nidzaru_claim claims[N];
    char apart[NIDZARU_APART];
    detail::shared_handle places[N];
};

// A block whose first object is a `Root`, all zeros, as this process has it. It goes from this process with the object.
template <class Root> class shared_block {
    static_assert(std::is_standard_layout<Root>::value && std::is_trivially_default_constructible<Root>::value &&
                      std::is_trivially_destructible<Root>::value,
                  "what a block begins with is made by zeros, as a struct of C");
    static_assert(alignof(Root) <= 4096, "what a block begins with is aligned to at most 4096");

  public:
    shared_block() = default;
    shared_block(const shared_block &) = delete;
    shared_block &operator=(const shared_block &) = delete;
    ~shared_block() { detach(); }

    // Makes a block of so many bytes. Without a name it is for children by fork alone.
    [[nodiscard]] int create(const char *name, std::size_t bytes) noexcept {
        if (block.head) return NIDZARU_IN_USE;
        return nidzaru_shared_create(&block, name, NIDZARU_SHARED_AT, bytes, sizeof(Root), type());
    }

    // How many bytes a block takes where nothing is made in it: those of all makes are to be added.
    static constexpr std::size_t create_bytes() noexcept { return NIDZARU_SHARED_HEAD + (sizeof(Root) + 63) / 64 * 64; }

    // Takes the block of this name into this process.
    [[nodiscard]] int attach(const char *name) noexcept {
        if (!name) return NIDZARU_NULL;
        if (block.head) return NIDZARU_IN_USE;
        return nidzaru_shared_attach(&block, name, sizeof(Root), type());
    }

    // Lets others attach. The thread that made the block opens it.
    [[nodiscard]] int open() noexcept { return nidzaru_shared_open(&block); }

    // Takes the block out of this process, which has no claims any more.
    int detach() noexcept { return nidzaru_shared_detach(&block); }

    // Takes away the name if it still is this block's.
    [[nodiscard]] int unlink(const char *name) const noexcept { return nidzaru_shared_unlink(&block, name); }

    // How many bytes no make has taken yet.
    [[nodiscard]] std::size_t left() const noexcept { return nidzaru_shared_left(&block); }

    // What the block begins with, if this process has one.
    [[nodiscard]] Root *operator->() const noexcept { return static_cast<Root *>(block.root); }
    [[nodiscard]] Root &operator*() const noexcept { return *static_cast<Root *>(block.root); }
    [[nodiscard]] explicit operator bool() const noexcept { return block.head != nullptr; }

    // The block as nidzaru_shared.h has it.
    [[nodiscard]] nidzaru_shared *at() noexcept { return &block; }

  private:
    static std::uint64_t type() noexcept { return nidzaru_shared_type(Root::shared_name, sizeof(Root), alignof(Root)); }
    nidzaru_shared block = {};
};

} // namespace nidzaru
#endif
