// Judges a recorded run, and writes what it found as JSON; it ends with 3 where it can't read the trace.
//   judge TRACE                               what was found
//   judge TRACE plain                         the same without short cuts
//   judge TRACE places                        the places of its events
//   judge TRACE part OUT at PLACE ..          the tasks of these places and what they need, as a trace
//   judge TRACE part OUT tasks FIRST LAST     those from one name to another
#include <algorithm>
#include <exception>
#include <iostream>
#include <new>
#include <optional>
#include <string>
#include <unordered_set>
#include <vector>

#include "part.h"
#include "report.h"

namespace {

void write_places(const judge::Trace &trace) {
    std::unordered_set<int> places;
    for (std::size_t at = 0; at < trace.size(); at++)
        if (trace[at].place != 0)
            places.insert(trace[at].place);
    std::vector<int> sorted(places.begin(), places.end());
    std::sort(sorted.begin(), sorted.end());
    std::cout << "[";
    for (std::size_t i = 0; i < sorted.size(); i++)
        std::cout << (i ? ", " : "") << sorted[i];
    std::cout << "]\n";
}

void write_part(const judge::Run &run, const std::vector<std::string> &words) {
    judge::Part part(run);
    if (words[3] == "tasks") {
        if (words.size() != 6 || !part.choose_named(words[4], words[5]))
            throw judge::BadTrace("there are no tasks of these names, the one in front of the other");
    } else {
        std::unordered_set<int> places;
        for (std::size_t i = 4; i < words.size(); i++)
            places.insert(std::stoi(words[i]));
        part.choose_at(places);
    }
    part.add_needed();
    part.write(words[2].c_str());
    part.tell(std::cout);
}

void judge_whole(const judge::Trace &trace, bool is_plain) {
    judge::Run run(trace);
    std::optional<judge::Memory> memory;
    if (run.fault.rule.empty())
        memory.emplace(run, is_plain);
    judge::Report(run, memory ? &*memory : nullptr).write(std::cout);
}

}  // namespace

int main(int count, char **given) {
    const std::vector<std::string> words(given + 1, given + count);
    bool has_part = words.size() > 4 && words[1] == "part";
    bool has_word = words.size() == 2 && (words[1] == "places" || words[1] == "plain");
    if (words.size() != 1 && !has_word && !has_part) {
        std::cerr << "judge TRACE [plain | places | part OUT at PLACE .. | part OUT tasks FIRST LAST]\n";
        return 64;
    }
    try {
        std::ios::sync_with_stdio(false);
        judge::Trace trace(words[0].c_str());
        if (has_part)
            write_part(judge::Run(trace), words);
        else if (has_word && words[1] == "places")
            write_places(trace);
        else
            judge_whole(trace, has_word);
        std::cout.flush();
        return std::cout ? 0 : 3;
    } catch (const std::bad_alloc &) {
        std::cerr << "not enough memory\n";
    } catch (const std::exception &fault) {
        std::cerr << fault.what() << "\n";
    }
    return 3;
}
