// Which part of a run comes before which: nodes in the order in which they were made, each after those that it names.
#pragma once

#include <utility>
#include <vector>

#include "trace.h"

namespace judge {

// A graph without circles. Whether one node leads to another is answered by three numberings and two trees, and by a walk
// only where these don't say: in each numbering a node comes after all that lead to it, and a tree's ancestors of a node
// lead to it. In one tree a node's parent is the one that it was made after, in the other the newest that leads to it.
class Graph {
public:
    // A node after this one, which is its parent in the tree (NONE: after nothing).
    u32 add(u32 parent);
    // `from` leads to `to`, which is newer.
    void lead(u32 from, u32 to);
    std::size_t size() const { return parents_.size(); }
    // No more is added; then `leads` answers.
    void finish();
    bool leads(u32 from, u32 to);
    u32 parent(u32 node) const { return parents_[node]; }

private:
    // In a tree: those below a node have numbers from first to last.
    struct Span {
        u32 first, last;
        bool has(const Span &other) const { return other.first >= first && other.first <= last; }
    };

    struct Label {
        u32 mirrored, reversed;   // two numberings beside the nodes' own
        Span made, newest;
    };

    void gather();
    void number_tree(const std::vector<u32> &parents, Span Label::*span);
    void number(bool is_mirrored);
    bool is_below(u32 node, u32 ancestor) const {
        return labels_[ancestor].made.has(labels_[node].made) || labels_[ancestor].newest.has(labels_[node].newest);
    }
    bool may_lead(u32 from, u32 to) const {
        return from < to && labels_[from].mirrored < labels_[to].mirrored && labels_[from].reversed < labels_[to].reversed;
    }

    std::vector<u32> parents_, newest_;
    std::vector<std::pair<u32, u32>> edges_;
    std::vector<u32> starts_, nexts_;
    std::vector<Label> labels_;
    std::vector<u32> visited_, stack_;
    u32 visit_ = 0;
};

}  // namespace judge
