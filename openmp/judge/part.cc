#include "part.h"

#include <algorithm>
#include <fstream>

namespace judge {

namespace {

constexpr u32 MOST_CHOSEN = 32, MOST_KEPT = 1000;

bool is_access(const event &e) { return (e.kind == READ || e.kind == WRITE) && !(e.mark & FREED); }

template <typename Take>
void each_place(const event &e, Take take) {
    u64 size = e.size == LARGE ? e.value : e.size;
    if (e.size == SET) {
        const u64 element = u64{1} << ((e.mark >> ROW_SHIFT) - 1);
        for (u64 i = 0; i < 64; i++)
            if (e.value >> i & 1)
                for (u64 place = (e.address + i * element) / 8; place < (e.address + (i + 1) * element + 7) / 8; place++)
                    take(place);
        return;
    }
    for (u64 place = e.address / 8; place < (e.address + (size ? size : 1) + 7) / 8; place++)
        take(place);
}

}  // namespace

Part::Part(const Run &run) : run_(run), kept_(run.actors.size(), 0) {}

u32 Part::actor_at(std::size_t at) const {
    u32 segment = run_.segment_of[at];
    return segment == NONE ? 0 : run_.segments[segment].actor;
}

// With those that made it, and those that it waits for by its clauses.
void Part::add(u32 actor) {
    std::vector<u32> left(1, actor);
    while (!left.empty()) {
        u32 at = left.back();
        left.pop_back();
        if (at == NONE)
            continue;
        if (!is_task(at)) {
            left.push_back(run_.actors[at].parent);
            continue;
        }
        if (kept_[at])
            continue;
        if (count_ >= MOST_KEPT) {
            farther_++;
            continue;
        }
        kept_[at] = 1;
        count_++;
        left.push_back(run_.actors[at].parent);
        left.insert(left.end(), run_.actors[at].waits.begin(), run_.actors[at].waits.end());
    }
}

void Part::choose_at(const std::unordered_set<int> &places) {
    std::vector<u32> found;
    for (u32 actor = 1; actor < run_.actors.size(); actor++)
        if (is_task(actor) && places.count(run_.actors[actor].place))
            found.push_back(actor);
    std::unordered_set<u32> known(found.begin(), found.end());
    for (std::size_t at = 0; at < run_.trace.size() && found.size() < MOST_CHOSEN; at++)
        if (is_access(run_.trace[at]) && places.count(run_.trace[at].place) && is_task(actor_at(at))
            && known.insert(actor_at(at)).second)
            found.push_back(actor_at(at));
    if (found.size() > MOST_CHOSEN)
        found.resize(MOST_CHOSEN);
    chosen_ = static_cast<u32>(found.size());
    for (u32 actor : found)
        add(actor);
}

bool Part::choose_named(const std::string &first, const std::string &last) {
    u32 from = NONE, to = NONE;
    for (u32 actor = 1; actor < run_.actors.size(); actor++) {
        if (!is_task(actor))
            continue;
        std::string name = run_.name(actor);
        from = name == first ? actor : from;
        to = name == last ? actor : to;
    }
    if (from == NONE || to == NONE || from > to)
        return false;
    for (u32 actor = from; actor <= to; actor++)
        if (is_task(actor)) {
            chosen_++;
            add(actor);
        }
    return true;
}

// From the last step to the first: who stored what a kept task loads behind it is kept too.
void Part::add_needed() {
    std::unordered_set<u64> wanted;
    for (std::size_t at = run_.trace.size(); at-- > 0;) {
        const event &e = run_.trace[at];
        if (!is_access(e) || run_.segment_of[at] == NONE || !is_task(actor_at(at)))
            continue;
        bool is_wanted = false;
        if (e.kind == WRITE && !wanted.empty())
            each_place(e, [&](u64 place) { is_wanted = wanted.erase(place) || is_wanted; });
        if (is_wanted)
            add(actor_at(at));
        if (e.kind == READ && kept_[actor_at(at)])
            each_place(e, [&](u64 place) { wanted.insert(place); });
    }
    for (u32 actor = 1; actor < run_.actors.size(); actor++)
        if (is_task(actor) && !kept_[actor]) {
            is_out_.resize(std::max<std::size_t>(is_out_.size(), run_.number_of(actor) + 1));
            is_out_[run_.number_of(actor)] = 1;
        }
}

std::unordered_set<u64> Part::touched() const {
    std::unordered_set<u64> places;
    for (std::size_t at = 0; at < run_.trace.size(); at++)
        if (is_access(run_.trace[at]) && run_.segment_of[at] != NONE && is_task(actor_at(at)) && kept_[actor_at(at)])
            each_place(run_.trace[at], [&](u64 place) { places.insert(place); });
    return places;
}

// Of what isn't kept the beginnings of blocks stay, and of who made the tasks what touches their memory.
bool Part::is_left(const event &e, std::size_t at, const std::unordered_set<u64> &places, event &changed) const {
    changed = e;
    bool is_gone = e.task < is_out_.size() && is_out_[e.task];
    if ((e.kind == CREATE || e.kind == FULFIL) && e.address < is_out_.size() && is_out_[e.address])
        return false;
    if (is_gone && (e.kind == MEMORY || ((e.kind == START || e.kind == END) && (e.mark & STACK)))) {
        changed.kind = MEMORY;
        changed.mark = 0;
        changed.task = 0;
        return true;
    }
    if (is_gone)
        return false;
    if ((e.kind != READ && e.kind != WRITE) || (run_.segment_of[at] != NONE && is_task(actor_at(at))))
        return true;
    bool is_near = false;
    if (e.mark & FREED)
        return false;
    each_place(e, [&](u64 place) { is_near = is_near || places.count(place); });
    return is_near;
}

void Part::write(const char *path) const {
    std::ofstream out(path, std::ios::binary);
    std::string page = "taskback trace 5 " + run_.trace.program();
    page.resize(4096, '\n');
    out.write(page.data(), static_cast<std::streamsize>(page.size()));
    const auto places = touched();
    u32 number = 0;
    for (std::size_t at = 0; at < run_.trace.size(); at++) {
        event changed;
        if (!is_left(run_.trace[at], at, places, changed))
            continue;
        number += static_cast<u32>(takes_number(changed.kind, changed.mark));
        changed.stamp = number;
        out.write(reinterpret_cast<const char *>(&changed), sizeof changed);
    }
    if (!out.flush())
        throw BadTrace(std::string("can't write ") + path);
}

void Part::tell(std::ostream &out) const {
    out << "{\"chosen\": " << chosen_ << ", \"kept\": " << count_ << ", \"tasks\": " << run_.explicit_tasks
        << ", \"farther\": " << farther_ << "}\n";
}

}  // namespace judge
