#include "report.h"

#include <map>

namespace judge {

std::string quoted(const std::string &text) {
    static const char DIGITS[] = "0123456789abcdef";
    std::string out = "\"";
    for (unsigned char letter : text) {
        if (letter == '"' || letter == '\\')
            out += '\\';
        if (letter < 32 || letter > 126)
            out += std::string("\\u00") + DIGITS[letter >> 4] + DIGITS[letter & 15];
        else
            out += static_cast<char>(letter);
    }
    return out + "\"";
}

// The actor and those that it comes from are listed.
void Report::name(u32 actor) {
    while (actor != NONE && named_.insert(actor).second)
        actor = run_.actors[actor].parent;
}

// With the tasks of a race those that clauses put right in front of them or behind, some of each.
void Report::name_near() {
    constexpr std::size_t MOST = 8;
    std::map<u32, std::size_t> behind;
    for (u32 actor : std::set<u32>(named_)) {
        const auto &waits = run_.actors[actor].waits;
        for (std::size_t i = 0; i < waits.size() && i < MOST; i++)
            name(waits[i]);
        behind[actor] = 0;
    }
    for (u32 actor = 1; actor < run_.actors.size() && !behind.empty(); actor++)
        for (u32 other : run_.actors[actor].waits) {
            auto found = behind.find(other);
            if (found != behind.end() && found->second++ < MOST)
                name(actor);
        }
}

void Report::write(std::ostream &out) {
    out << "{\"program\": " << quoted(run_.trace.program()) << ", \"unseen\": " << quoted(run_.trace.unseen())
        << ",\n\"events\": " << run_.trace.size() << ", \"tasks\": " << run_.explicit_tasks
        << ", \"team\": " << run_.team_most << ", \"regions\": " << run_.regions.size()
        << ", \"cut\": " << (run_.trace.is_cut() ? "true" : "false")
        << ", \"ended\": " << (run_.has_ended ? "true" : "false") << ", \"unended\": " << run_.unended.size()
        << ", \"open_regions\": " << run_.open_regions << ",\n";
    write_counts(out);
    write_fault(out);
    write_races(out);
    name_near();
    write_actors(out);
    out << "}\n";
}

void Report::write_counts(std::ostream &out) const {
    const Counts &c = run_.counts;
    out << "\"counts\": {\"locks\": " << c.locks << ", \"reductions\": " << c.reductions << ", \"detached\": " << c.detached
        << ", \"cancellations\": " << c.cancellations << ", \"deep\": " << c.deep << ", \"handed_over\": " << c.soft
        << ", \"forks\": " << c.forks << ", \"no_tool\": " << c.no_tool << ", \"simd\": " << c.simd;
    if (memory_)
        out << ", \"by_atomics\": " << memory_->by_atomics << ", \"by_locks\": " << memory_->by_locks
            << ", \"by_handover\": " << memory_->by_handover
            << ", \"copies\": " << memory_->copies << ", \"by_thread_number\": " << memory_->by_thread_number
            << ", \"by_one_number\": " << memory_->by_one_number
            << ", \"strangers\": " << memory_->strangers;
    out << "},\n";
}

void Report::write_fault(std::ostream &out) {
    const Fault &fault = run_.fault;
    if (fault.rule.empty()) {
        out << "\"fault\": null,\n";
        return;
    }
    name(fault.actor);
    name(fault.other);
    out << "\"fault\": {\"rule\": " << quoted(fault.rule) << ", \"step\": " << quoted(fault.step)
        << ", \"actor\": " << fault.actor << ", \"other\": " << fault.other << ", \"place\": " << fault.place
        << ", \"event\": " << fault.event << "},\n";
}

// Where the function was called that made the access, and where its caller.
void Report::write_callers(std::ostream &out, u32 at) const {
    out << "[";
    if (run_.chain_of[at] != NONE) {
        const event &e = run_.trace[run_.chain_of[at]];
        const u64 places[CALLERS] = {static_cast<u32>(e.place), e.address & 0xffffffff, e.address >> 32,
                                     e.value & 0xffffffff, e.value >> 32};
        for (int i = 0; i < CALLERS && places[i] != 0; i++)
            out << (i ? ", " : "") << places[i];
    }
    out << "]";
}

void Report::write_side(std::ostream &out, u32 at, u32 segment) {
    const event &e = run_.trace[at];
    auto reduced = run_.reduced_at.find(at);
    const int place = reduced == run_.reduced_at.end() ? e.place : run_.trace[reduced->second].place;
    u32 actor = run_.segments[segment].actor;
    name(actor);
    const char *done = e.kind == GROUP_CLOSE || e.kind == COPY || e.kind == LOCK ? "writes" : e.mark & FREED ? "frees" : e.kind == WRITE ? "writes" : "reads";
    out << "{\"done\": \"" << done << "\", \"place\": " << place << ", \"actor\": " << actor << ", \"address\": " << e.address
        << ", \"size\": " << (e.mark >> ROW_SHIFT ? 1u << ((e.mark >> ROW_SHIFT) - 1) : e.size) << ", \"unit\": " << (run_.segments[segment].flags & Segment::IS_UNIT ? "true" : "false")
        << ", \"frame\": " << (e.mark & FRAME && e.kind == WRITE ? "true" : "false") << ", \"library\": " << (e.mark & LIBRARY && (e.kind == READ || e.kind == WRITE) ? "true" : "false")
        << ", \"callers\": ";
    write_callers(out, at);
    out << "}";
}

void Report::write_races(std::ostream &out) {
    out << "\"races\": [";
    for (std::size_t i = 0; memory_ && i < memory_->races.size(); i++) {
        const Race &race = memory_->races[i];
        const Block &block = memory_->block_of_race[i];
        out << (i ? ",\n" : "\n") << "{\"count\": " << race.count << ", \"apart\": " << (race.is_apart ? "true" : "false")
            << ", \"copied\": " << (race.is_copied ? "true" : "false") << ", \"sure\": " << (race.is_sure ? "true" : "false")
            << ", \"lanes\": " << (run_.are_lanes(race.earlier_segment, race.later_segment) ? "true" : "false") << ", \"address\": " << race.address;
        if (block.at != NONE && run_.trace[block.at].place != 0)
            out << ", \"block\": {\"place\": " << run_.trace[block.at].place
                << ", \"offset\": " << race.address - memory_->block_begin[i] << ", \"size\": " << block.size << "}";
        out << ", \"earlier\": ";
        write_side(out, race.earlier, race.earlier_segment);
        out << ", \"later\": ";
        write_side(out, race.later, race.later_segment);
        out << "}";
    }
    out << "],\n";
}

void Report::write_actors(std::ostream &out) const {
    out << "\"actors\": {";
    bool is_first = true;
    for (u32 number : named_) {
        const Actor &actor = run_.actors[number];
        out << (is_first ? "\n" : ",\n") << "\"" << number << "\": {\"name\": \"" << run_.name(number)
            << "\", \"parent\": " << (actor.parent == NONE ? -1 : static_cast<long>(actor.parent))
            << ", \"place\": " << actor.place << ", \"flags\": " << actor.flags << ", \"items\": [";
        for (std::size_t i = 0; i < actor.items.size(); i++)
            out << (i ? ", [" : "[") << actor.items[i].address << ", " << actor.items[i].length << ", "
                << unsigned{actor.items[i].type} << "]";
        out << "], \"waits\": [";
        bool is_first_wait = true;
        for (u32 other : actor.waits) {
            if (!named_.count(other))
                continue;
            out << (is_first_wait ? "" : ", ") << other;
            is_first_wait = false;
        }
        out << "]}";
        is_first = false;
    }
    out << "}";
}

}  // namespace judge
