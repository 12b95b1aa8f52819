#include "trace.h"

#include <fcntl.h>
#include <sys/mman.h>
#include <sys/stat.h>
#include <unistd.h>

#include <algorithm>
#include <cerrno>
#include <cstring>

namespace judge {

Trace::Trace(const char *path) {
    int file = open(path, O_RDONLY | O_CLOEXEC);
    struct stat about {};
    if (file < 0 || fstat(file, &about) != 0)
        throw BadTrace("can't read " + std::string(path) + ": " + std::strerror(errno));
    length_ = static_cast<std::size_t>(about.st_size);
    void *mapped = length_ ? mmap(nullptr, length_, PROT_READ, MAP_PRIVATE, file, 0) : MAP_FAILED;
    close(file);
    constexpr char WORDS[] = "taskback trace 5 ";
    bool is_whole = mapped != MAP_FAILED && length_ >= HEADER && std::memcmp(mapped, WORDS, sizeof WORDS - 1) == 0;
    if (mapped != MAP_FAILED)
        bytes_ = static_cast<const char *>(mapped);
    if (!is_whole)
        throw BadTrace(std::string(path) + " is no whole trace");
    read_header();
    put_in_order();
}

Trace::~Trace() {
    if (bytes_)
        munmap(const_cast<char *>(bytes_), length_);
}

void Trace::read_header() {
    std::string page(bytes_, HEADER);
    std::size_t begin = std::strlen("taskback trace 5 "), end = page.find('\n');
    program_ = page.substr(begin, end - begin);
    is_cut_ = page.compare(HEADER - (sizeof NO_ROOM - 1), sizeof NO_ROOM - 1, NO_ROOM) == 0;
    std::size_t second = page.find('\n', end + 1);
    unseen_ = page.substr(end + 1, second - end - 1);
}

// Where the piece that begins there ends: a packed one says so, another one has room for PIECE events.
std::size_t Trace::end_of_piece(std::size_t at) const {
    event head;
    std::memcpy(&head, bytes_ + at, sizeof head);
    if (head.kind != CHUNK || head.value == 0)
        return std::min(at + PIECE * sizeof(event), length_);
    if (head.value > length_)
        return length_;
    return std::min(at + (head.value + END_MARK + 2 * sizeof(event) - 1) / sizeof(event) * sizeof(event), length_);
}

// Where there was no room for all of a packed piece, or the program ended while it was written, its events are in the
// thread's first one.
bool Trace::is_whole(std::size_t at, std::size_t end) const {
    event head;
    std::memcpy(&head, bytes_ + at, sizeof head);
    const std::size_t behind = at + sizeof head + head.value;
    if (head.kind != CHUNK || head.value == 0)
        return true;
    return head.value <= length_ && behind + END_MARK <= end && std::count(bytes_ + behind, bytes_ + behind + END_MARK, '\xff') == END_MARK;
}

// Where pieces begin; what stands between them is empty.
std::vector<std::size_t> Trace::find_begins() const {
    std::vector<std::size_t> begins;
    for (std::size_t at = HEADER; at + sizeof(event) <= length_;) {
        if (bytes_[at + offsetof(event, kind)] == 0) {
            at += sizeof(event);
            continue;
        }
        std::size_t end = end_of_piece(at);
        if (is_whole(at, end))
            begins.push_back(at);
        at = end;
    }
    return begins;
}

// Writes the events of a piece to `to`, and returns their number.
u32 Trace::unpack(std::size_t at, event *to) const {
    const std::size_t end = end_of_piece(at);
    std::memcpy(to, bytes_ + at, sizeof *to);
    u32 count = 1;
    if (to->kind == CHUNK && to->value != 0) {
        const auto *from = reinterpret_cast<const unsigned char *>(bytes_ + at + sizeof *to), *behind = from + to->value;
        to->value = 0;
        const event *last[FAMILIES];
        std::fill(last, last + FAMILIES, to);
        for (; from != behind && count < PIECE; count++)
            if (!(from = unpack_event(last, to + count, from, behind)))
                throw BadTrace("a piece of the trace is wrong");
        return count;
    }
    for (at += sizeof *to; at + sizeof *to <= end && bytes_[at + offsetof(event, kind)] != 0; at += sizeof *to)
        std::memcpy(to + count++, bytes_ + at, sizeof *to);
    return count;
}

// All events, and which of them each piece has.
std::vector<Trace::Piece> Trace::read_events(const std::vector<std::size_t> &begins) {
    const auto one = std::make_unique<event[]>(PIECE);
    std::vector<Piece> pieces;
    std::size_t size = 0;
    for (std::size_t at : begins) {
        const auto begin = static_cast<u32>(size);
        const u32 count = unpack(at, one.get());
        size += unfolded_size(one.get(), count);
        if (size >= NONE)
            throw BadTrace("the trace has too many events");
        pieces.push_back(Piece{begin, static_cast<u32>(size), count == PIECE});
    }
    events_.reset(new event[size]);
    for (std::size_t number = 0; number < begins.size(); number++)
        unfold(one.get(), unpack(begins[number], one.get()), &events_[pieces[number].begin]);
    return pieces;
}

// Whether the one is the other once more, behind its first event.
bool Trace::is_twice(const Piece &one, const Piece &other) const {
    const std::size_t count = one.end - one.begin;
    return one.is_full && other.is_full && count == other.end - other.begin
           && std::memcmp(&events_[one.begin + 1], &events_[other.begin + 1], (count - 1) * sizeof(event)) == 0;
}

// The pieces of each thread in its order: its first one, which it fills again and again, has its newest events.
std::vector<std::vector<Trace::Piece>> Trace::read_pieces() {
    std::vector<std::vector<Piece>> pieces(1);
    for (const Piece &piece : read_events(find_begins())) {
        const event &head = events_[piece.begin];
        const u32 thread = head.kind == CHUNK ? static_cast<u32>(head.address) : 0;
        if (thread >= length_ / sizeof(event))
            throw BadTrace("the trace's threads are wrong");
        if (thread >= pieces.size())
            pieces.resize(thread + 1);
        pieces[thread].push_back(piece);
    }
    for (auto &own : pieces) {
        if (own.empty() || events_[own[0].begin].kind != CHUNK)
            continue;
        std::rotate(own.begin(), own.begin() + 1, own.end());
        // A run that ended between the copy of a full piece and what comes next has it twice.
        if (own.size() > 1 && is_twice(own.back(), own[own.size() - 2]))
            own.pop_back();
    }
    return pieces;
}

// The last number in front of one that is missing: where there was no room for all, or a thread was in the middle of
// writing at the end, what comes behind makes no sense without it.
u32 Trace::find_whole(const std::vector<std::vector<Piece>> &pieces) {
    u32 count = 0;
    for (const auto &own : pieces)
        for (const Piece &piece : own)
            count = std::max(count, piece.end);
    std::vector<bool> is_there(std::size_t{count} + 2, false);
    u32 last = 0;
    for (const auto &own : pieces)
        for (const Piece &piece : own)
            for (u32 i = piece.begin; i < piece.end; i++) {
                const event &e = events_[i];
                if (e.kind == CHUNK)
                    continue;
                last = std::max(last, e.stamp);
                has_end_ = has_end_ || e.kind == ENDED;
                if (takes_number(e.kind, e.mark) && e.stamp < is_there.size())
                    is_there[e.stamp] = true;
            }
    u32 whole = 0;
    while (is_there[whole + 1])
        whole++;
    is_cut_ = is_cut_ || whole != last;
    return whole;
}

// By their numbers: in front the one that has taken the number, then those that have only read it.
void Trace::put_in_order() {
    const auto pieces = read_pieces();
    munmap(const_cast<char *>(bytes_), length_);
    bytes_ = nullptr;
    const u32 last = find_whole(pieces);
    auto each = [&](auto take) {
        for (const auto &own : pieces)
            for (const Piece &piece : own)
                for (u32 i = piece.begin; i < piece.end; i++)
                    if (events_[i].kind != CHUNK && events_[i].stamp <= last)
                        take(i, events_[i]);
    };
    std::vector<u32> at(std::size_t{last} + 2, 0);
    each([&](u32, const event &e) { at[e.stamp + 1]++; });
    for (u32 stamp = 1; stamp <= last; stamp++)
        at[stamp + 1] += at[stamp];
    order_.resize(at[last + 1]);
    for (int has_number = 1; has_number >= 0; has_number--)
        each([&](u32 i, const event &e) {
            if (takes_number(e.kind, e.mark) == has_number)
                order_[at[e.stamp]++] = i;
        });
    for (std::size_t thread = 0; thread < pieces.size(); thread++)
        for (const Piece &piece : pieces[thread])
            for (u32 i = piece.begin; i < piece.end; i++)
                events_[i].stamp = static_cast<u32>(thread);
}

}  // namespace judge
