#include "lives.h"

#include <algorithm>

namespace judge {

Lives::Stack *Lives::stack_of(u32 thread) {
    auto found = thread < lows_.size() ? stacks_.find(lows_[thread]) : stacks_.end();
    return found == stacks_.end() ? nullptr : &found->second;
}

void Lives::take(u32 thread, u64 low, const Holder &holder) {
    if (thread >= lows_.size())
        lows_.resize(thread + 1);
    lows_[thread] = low;
    Stack &stack = stacks_[low];
    stack.top = std::max(stack.top, holder.base);
    stack.holders.push_back(holder);
}

const Holder *Lives::give_back(u32 thread, u64 base, std::vector<u32> &gone) {
    Stack *stack = stack_of(thread);
    while (stack && !stack->holders.empty() && stack->holders.back().base <= base) {
        gone.push_back(stack->holders.back().actor);
        stack->holders.pop_back();
    }
    return stack && !stack->holders.empty() ? &stack->holders.back() : nullptr;
}

u64 Lives::base_of(u32 thread, u32 actor) const {
    const Stack *stack = stack_of(thread);
    for (std::size_t i = stack ? stack->holders.size() : 0; i-- > 0;)
        if (stack->holders[i].actor == actor)
            return stack->holders[i].base;
    return ~u64{0};
}

const Gone *Lives::gone(u32 actor) const {
    auto found = gone_.find(actor);
    return found == gone_.end() ? nullptr : &found->second;
}

bool Lives::is_beyond(u32 thread, u32 actor, u64 address) const {
    const Stack *stack = stack_of(thread);
    if (!stack || stack->holders.empty() || stack->holders.back().actor != actor)
        return false;
    return address - lows_[thread] >= stack->holders.back().base - lows_[thread];
}

const Holder *Lives::holder_of(u64 address, bool &is_stack) const {
    auto after = stacks_.upper_bound(address);
    is_stack = after != stacks_.begin() && address < std::prev(after)->second.top;
    if (!is_stack)
        return nullptr;
    const auto &holders = std::prev(after)->second.holders;
    auto found = std::find_if(holders.rbegin(), holders.rend(), [=](const Holder &holder) { return address < holder.base; });
    return found == holders.rend() ? nullptr : &*found;
}

}  // namespace judge
