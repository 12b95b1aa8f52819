// What the judge found, as one object of JSON: numbers and places, which others put into words.
#pragma once

#include <ostream>
#include <set>

#include "memory.h"

namespace judge {

class Report {
public:
    Report(Run &run, const Memory *memory) : run_(run), memory_(memory) {}
    void write(std::ostream &out);

private:
    void write_counts(std::ostream &out) const;
    void write_fault(std::ostream &out);
    void write_races(std::ostream &out);
    void write_side(std::ostream &out, u32 at, u32 segment);
    void write_actors(std::ostream &out) const;
    void name(u32 actor);
    void name_near();
    void write_callers(std::ostream &out, u32 at) const;

    Run &run_;
    const Memory *memory_;
    std::set<u32> named_;
};

// A text as JSON has it.
std::string quoted(const std::string &text);

}  // namespace judge
