// A part of a run: some tasks and what they need, as a trace of its own.
#pragma once

#include <ostream>
#include <string>
#include <unordered_set>
#include <vector>

#include "run.h"

namespace judge {

class Part {
public:
    explicit Part(const Run &run);
    // The tasks that these places made, or that touch memory there.
    void choose_at(const std::unordered_set<int> &places);
    // Those from one to another, by their names; whether both are there.
    bool choose_named(const std::string &first, const std::string &last);
    // What the chosen ones need: who made them, whom their clauses make them wait for, who stored what they load.
    void add_needed();
    void write(const char *path) const;
    void tell(std::ostream &out) const;

private:
    void add(u32 actor);
    bool is_task(u32 actor) const { return actor != 0 && !(run_.actors[actor].flags & Actor::IS_PART); }
    u32 actor_at(std::size_t at) const;
    std::unordered_set<u64> touched() const;
    bool is_left(const event &e, std::size_t at, const std::unordered_set<u64> &places, event &changed) const;

    const Run &run_;
    std::vector<char> kept_;
    std::vector<char> is_out_;      // by the recorder's numbers: tasks that aren't kept
    u32 chosen_ = 0, count_ = 0, farther_ = 0;
};

}  // namespace judge
