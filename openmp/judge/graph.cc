#include "graph.h"

namespace judge {

u32 Graph::add(u32 parent) {
    u32 node = static_cast<u32>(parents_.size());
    parents_.push_back(parent);
    newest_.push_back(parent);
    if (parent != NONE)
        edges_.emplace_back(parent, node);
    return node;
}

void Graph::lead(u32 from, u32 to) {
    if (from == NONE || from >= to || parents_[to] == from)
        return;
    edges_.emplace_back(from, to);
    if (newest_[to] == NONE || newest_[to] < from)
        newest_[to] = from;
}

void Graph::finish() {
    labels_.assign(parents_.size(), Label{});
    visited_.assign(parents_.size(), 0);
    gather();
    number_tree(parents_, &Label::made);
    number_tree(newest_, &Label::newest);
    newest_ = {};
    number(false);
    number(true);
}

// The edges by where they come from, in the order of where they lead.
void Graph::gather() {
    starts_.assign(parents_.size() + 1, 0);
    for (const auto &edge : edges_)
        starts_[edge.first + 1]++;
    for (std::size_t i = 1; i < starts_.size(); i++)
        starts_[i] += starts_[i - 1];
    nexts_.resize(edges_.size());
    std::vector<u32> filled(starts_.begin(), starts_.end() - 1);
    for (const auto &edge : edges_)
        nexts_[filled[edge.first]++] = edge.second;
    edges_.clear();
    edges_.shrink_to_fit();
}

// How many are below each node is known from the last node to the first; then each child takes its share of numbers.
void Graph::number_tree(const std::vector<u32> &parents, Span Label::*span) {
    std::vector<u32> sizes(parents.size(), 1);
    for (std::size_t i = parents.size(); i-- > 0;)
        if (parents[i] != NONE)
            sizes[parents[i]] += sizes[i];
    u32 roots = 0;
    std::vector<u32> given(parents.size(), 0);
    for (std::size_t i = 0; i < parents.size(); i++) {
        u32 parent = parents[i];
        u32 first = parent == NONE ? roots : (labels_[parent].*span).first + 1 + given[parent];
        (parent == NONE ? roots : given[parent]) += sizes[i];
        labels_[i].*span = Span{first, first + sizes[i] - 1};
    }
}

// The numbers fall as the walk leaves the nodes: a node is left after all that it leads to.
void Graph::number(bool is_mirrored) {
    std::vector<u32> at(starts_.begin(), starts_.end() - 1);
    std::vector<char> seen(parents_.size(), 0);
    u32 number = static_cast<u32>(parents_.size());
    for (std::size_t root = 0; root < parents_.size(); root++) {
        if (seen[root])
            continue;
        seen[root] = 1;
        stack_.assign(1, static_cast<u32>(root));
        while (!stack_.empty()) {
            u32 node = stack_.back(), count = at[node] - starts_[node];
            if (at[node] == starts_[node + 1]) {
                (is_mirrored ? labels_[node].mirrored : labels_[node].reversed) = --number;
                stack_.pop_back();
                continue;
            }
            u32 next = nexts_[is_mirrored ? starts_[node] + count : starts_[node + 1] - 1 - count];
            at[node]++;
            if (!seen[next]) {
                seen[next] = 1;
                stack_.push_back(next);
            }
        }
    }
}

bool Graph::leads(u32 from, u32 to) {
    if (from == to || is_below(to, from))
        return true;
    if (!may_lead(from, to))
        return false;
    visit_++;
    stack_.assign(1, from);
    while (!stack_.empty()) {
        u32 node = stack_.back();
        stack_.pop_back();
        for (u32 i = starts_[node]; i < starts_[node + 1]; i++) {
            u32 next = nexts_[i];
            if (next == to || is_below(to, next))
                return true;
            if (visited_[next] != visit_ && may_lead(next, to)) {
                visited_[next] = visit_;
                stack_.push_back(next);
            }
        }
    }
    return false;
}

}  // namespace judge
