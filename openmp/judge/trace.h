// A trace as the recorder wrote it: a page of text, and then pieces of events, each of one thread.
#pragma once

#include <cstddef>
#include <cstdint>
#include <memory>
#include <stdexcept>
#include <string>
#include <vector>

#include "../recorder/packing.h"

namespace judge {

using u8 = std::uint8_t;
using u16 = std::uint16_t;
using u32 = std::uint32_t;
using u64 = std::uint64_t;

constexpr u32 NONE = ~u32{0};

struct BadTrace : std::runtime_error {
    using std::runtime_error::runtime_error;
};

// How many events those of a piece stand for, and these.
std::size_t unfolded_size(const event *events, std::size_t count);
void unfold(const event *events, std::size_t count, event *to);

// The events of a trace in the order of their stamps, in whose place stand their threads then.
class Trace {
public:
    explicit Trace(const char *path);
    ~Trace();
    Trace(const Trace &) = delete;
    Trace &operator=(const Trace &) = delete;

    std::size_t size() const { return order_.size(); }
    const event &operator[](std::size_t at) const { return events_[order_[at]]; }
    // The thread that wrote the event down.
    u32 thread(std::size_t at) const { return events_[order_[at]].stamp; }
    const std::string &program() const { return program_; }
    // The object files of the program that have none of the instrumentation's calls.
    const std::string &unseen() const { return unseen_; }
    // Whether an event is missing in front of the last one.
    bool is_cut() const { return is_cut_; }
    // Whether the program came to its end.
    bool has_end() const { return has_end_; }

private:
    static constexpr std::size_t HEADER = 4096, PIECE = 2048;

    // Events of one thread, one behind the other.
    struct Piece {
        u32 begin, end;
        bool is_full;   // so the recorder has begun another one behind it, or was about to
    };

    void read_header();
    std::size_t end_of_piece(std::size_t at) const;
    bool is_whole(std::size_t at, std::size_t end) const;
    u32 unpack(std::size_t at, event *to) const;
    std::vector<std::size_t> find_begins() const;
    std::vector<Piece> read_events(const std::vector<std::size_t> &begins);
    std::vector<std::vector<Piece>> read_pieces();
    bool is_twice(const Piece &one, const Piece &other) const;
    u32 find_whole(const std::vector<std::vector<Piece>> &pieces);
    void put_in_order();

    const char *bytes_ = nullptr;
    std::size_t length_ = 0;
    std::unique_ptr<event[]> events_;
    std::vector<u32> order_;
    std::string program_, unseen_;
    bool is_cut_ = false, has_end_ = false;
};

}  // namespace judge
