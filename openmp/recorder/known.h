// What the recorder's pass knows of a program's code: whose address nobody else can have, and which loops are of `simd`.
#pragma once

#include "llvm/Analysis/LoopInfo.h"
#include "llvm/Analysis/ValueTracking.h"
#include "llvm/IR/DebugInfoMetadata.h"
#include "llvm/IR/Dominators.h"
#include "llvm/IR/IRBuilder.h"
#include "llvm/IR/InstIterator.h"
#include "llvm/IR/IntrinsicInst.h"
#include "llvm/IR/Module.h"

namespace {

using namespace llvm;

bool begins(StringRef name, StringRef with) { return name.substr(0, with.size()) == with; }

// Whether the call only fills or copies what the pointer leads to, or says how long it lives.
bool keeps_nothing(const User *user) {
    const auto *call = dyn_cast<IntrinsicInst>(user);
    return call && (isa<MemIntrinsic>(call) || isa<DbgInfoIntrinsic>(call) || call->isLifetimeStartOrEnd());
}

// What is stored in the variable, where that is one value.
const Value *only_stored_in(const AllocaInst *variable) {
    const Value *only = nullptr;
    for (const User *user : variable->users())
        if (const auto *store = dyn_cast<StoreInst>(user)) {
            if (only)
                return nullptr;
            only = store->getValueOperand()->stripPointerCasts();
        }
    return only;
}

// The function that is called, also where its address goes through a variable, as code that isn't optimised has it.
const Function *called_by(const CallBase *call) {
    const Value *called = call->getCalledOperand()->stripPointerCasts();
    const auto *load = dyn_cast<LoadInst>(called);
    const auto *variable = load ? dyn_cast<AllocaInst>(load->getPointerOperand()) : nullptr;
    return dyn_cast_or_null<Function>(variable ? only_stored_in(variable) : called);
}

// By this function of the compiler's a task finds the copies that it has in its record.
bool is_map(const Function &function) { return begins(function.getName(), ".omp_task_privates_map."); }

// Whether the call reads a list of items, or leaves the addresses of a task's copies there, and nobody else gets it.
bool is_of_compiler(const User *user) {
    const auto *call = dyn_cast<CallBase>(user);
    const Function *called = call ? called_by(call) : nullptr;
    const StringRef name = called ? called->getName() : "";
    return name == "__kmpc_omp_task_with_deps" || name == "__kmpc_omp_wait_deps" || name == "__kmpc_omp_taskwait_deps_51"
           || (called && is_map(*called));
}

// Whether an address may be known to anybody but the function's own loads and stores.
bool is_known_elsewhere(const Value *address) {
    SmallVector<const Value *, 8> left(1, address);
    while (!left.empty()) {
        const Value *pointer = left.pop_back_val();
        for (const User *user : pointer->users()) {
            if (isa<GetElementPtrInst>(user) || isa<BitCastInst>(user))
                left.push_back(user);
            else if (const auto *store = dyn_cast<StoreInst>(user)) {
                if (store->getValueOperand() == pointer)
                    return true;
            } else if (!isa<LoadInst>(user) && !keeps_nothing(user) && !is_of_compiler(user))
                return true;
        }
    }
    return false;
}

// Whether it is a pointer into the record of a task that the function is making: nobody else has it yet.
bool is_in_new_record(const Value *pointer) {
    const Value *object = getUnderlyingObject(pointer, 0);
    if (const auto *load = dyn_cast<LoadInst>(object))
        object = getUnderlyingObject(load->getPointerOperand(), 0);
    const auto *call = dyn_cast<CallBase>(object);
    const Function *called = call ? call->getCalledFunction() : nullptr;
    return called && called->getName() == "__kmpc_omp_task_alloc";
}

// ---- what a task's function finds in the task's record, as code that isn't optimised has it

// The variable from which a pointer comes, which is loaded from there and then moved by `offset` bytes at most.
const AllocaInst *comes_from(const Value *pointer, const DataLayout &layout, int64_t &offset) {
    APInt moved(layout.getIndexTypeSizeInBits(pointer->getType()), 0);
    const Value *object = pointer->stripAndAccumulateConstantOffsets(layout, moved, true);
    const auto *load = dyn_cast<LoadInst>(object);
    offset = moved.getSExtValue();
    return load ? dyn_cast<AllocaInst>(load->getPointerOperand()) : nullptr;
}

// How many bytes of a record, and of the pointers to what the task shares, nobody changes once the task is there; the
// recorder leaves out their loads too.
constexpr int64_t RECORD_HEAD = 40, SHARED_MOST = 64;

// Whether the head of the record is loaded from, by which the compiler's code finds what the task shares.
bool is_in_record_head(const Value *pointer, const Function &function, int64_t most) {
    int64_t offset = 0;
    const auto *variable = comes_from(pointer, function.getParent()->getDataLayout(), offset);
    const Value *only = variable && begins(function.getName(), ".omp_task_entry.") ? only_stored_in(variable) : nullptr;
    return only && function.arg_size() == 2 && only == function.getArg(1) && offset >= 0 && offset < most;
}

// Whether that, or one of the pointers to what the task shares.
bool is_of_record(const LoadInst &one) {
    const Function &function = *one.getFunction();
    if (is_in_record_head(one.getPointerOperand(), function, RECORD_HEAD))
        return true;
    int64_t offset = 0;
    const auto *variable = comes_from(one.getPointerOperand(), function.getParent()->getDataLayout(), offset);
    const auto *shared = dyn_cast_or_null<LoadInst>(variable ? only_stored_in(variable) : nullptr);
    return shared && offset >= 0 && offset < SHARED_MOST && is_in_record_head(shared->getPointerOperand(), function, 1);
}

// Whether the map leaves the address of one of the task's copies there, and nothing but loads and stores uses that.
bool is_of_hidden_copy(const AllocaInst *variable) {
    bool is_mapped = false;
    for (const User *user : variable->users()) {
        const auto *load = dyn_cast<LoadInst>(user);
        const auto *call = dyn_cast<CallBase>(user);
        const Function *called = call ? called_by(call) : nullptr;
        if (load ? is_known_elsewhere(load) : !keeps_nothing(user) && !(called && is_map(*called)))
            return false;
        is_mapped = is_mapped || (called && is_map(*called));
    }
    return is_mapped;
}

// Whether the function takes its share of a loop: the recorder sees iterations by the number that is stored there.
bool has_loop(const Function &function) {
    for (const Instruction &one : instructions(function)) {
        const auto *call = dyn_cast<CallBase>(&one);
        const Function *called = call ? call->getCalledFunction() : nullptr;
        if (called && (begins(called->getName(), "__kmpc_for_static_init") || begins(called->getName(), "__kmpc_dispatch_")))
            return true;
    }
    return false;
}

// ---- `simd` loops, as code that isn't optimised has them

// What is said of a loop: whether it is one of `simd`, and its `safelen` (0: none).
struct Lanes {
    bool is_simd = false;
    uint64_t safelen = 0;
    unsigned line = 0;
};

uint64_t number_in(const MDNode *node) {
    const auto *number = node->getNumOperands() > 1 ? mdconst::dyn_extract_or_null<ConstantInt>(node->getOperand(1)) : nullptr;
    return number ? number->getZExtValue() : 0;
}

Lanes lanes_of(const Loop &loop) {
    Lanes found;
    const MDNode *told = loop.getLoopID();
    uint64_t width = 0;
    bool is_parallel = false;
    for (unsigned i = 1; told && i < told->getNumOperands(); i++) {
        const auto *one = dyn_cast<MDNode>(told->getOperand(i));
        const auto *name = one && one->getNumOperands() ? dyn_cast<MDString>(one->getOperand(0)) : nullptr;
        if (name && name->getString() == "llvm.loop.vectorize.enable")
            found.is_simd = number_in(one) != 0;
        else if (name && name->getString() == "llvm.loop.vectorize.width")
            width = number_in(one);
        else if (name && name->getString() == "llvm.loop.parallel_accesses")
            is_parallel = true;
        else if (const auto *place = dyn_cast<DILocation>(told->getOperand(i)))
            found.line = found.line ? found.line : place->getLine();
    }
    found.safelen = is_parallel ? 0 : width;
    found.is_simd = found.is_simd && (is_parallel || width > 0);
    return found;
}

// Whether it is a thread's share of a worksharing loop, whose end the runtime says: its iterations are told apart already.
bool is_shared_out(const Loop &loop) {
    for (const Instruction &one : *loop.getHeader()) {
        const auto *load = dyn_cast<LoadInst>(&one);
        const auto *variable = load ? dyn_cast<AllocaInst>(load->getPointerOperand()) : nullptr;
        if (!variable)
            continue;
        for (const User *user : variable->users()) {
            const auto *call = dyn_cast<CallBase>(user);
            if (call && call->getCalledFunction() && begins(call->getCalledFunction()->getName(), "__kmpc_"))
                return true;
        }
    }
    return false;
}

// The variables that the program has declared, without the copies that clang makes for a clause: their lines.
DenseMap<const Value *, unsigned> declared_in(const Function &function) {
    DenseMap<const Value *, unsigned> lines;
    auto add = [&](const auto &told) {
        if (!told.getVariable()->isArtificial() && told.getNumVariableLocationOps() > 0)
            lines.try_emplace(told.getVariableLocationOp(0), told.getVariable()->getLine());
    };
    for (const Instruction &one : instructions(function)) {
        if (const auto *told = dyn_cast<DbgVariableIntrinsic>(&one))
            add(*told);
#if LLVM_VERSION_MAJOR >= 19
        for (const DbgVariableRecord &told : filterDbgVars(one.getDbgRecordRange()))
            add(told);
#endif
    }
    return lines;
}

// How many bytes it has; 0 where that is known only when the function runs.
uint64_t size_of(const AllocaInst *variable, const DataLayout &layout) {
    const auto *count = dyn_cast<ConstantInt>(variable->getArraySize());
    return count ? layout.getTypeAllocSize(variable->getAllocatedType()) * count->getZExtValue() : 0;
}

class Simd {
public:
    Simd(Function &function, bool is_optimised) : function_(function) {
        if (is_optimised)
            return;
        tree_ = std::make_unique<DominatorTree>(function);
        loops_ = std::make_unique<LoopInfo>(*tree_);
        for (Loop *loop : loops_->getLoopsInPreorder()) {
            const Lanes lanes = lanes_of(*loop);
            if (lanes.is_simd && !is_shared_out(*loop) && is_simple(*loop) && !around(loop->getHeader()))
                found_.emplace_back(loop, lanes);
        }
        if (!found_.empty())
            lines_ = declared_in(function);
    }

    bool is_lanes(const Instruction &one) const { return around(one.getParent()) != nullptr; }

    // Whether the access is one of a lane to a local variable that the lanes share, and that one of them may change.
    bool is_lanes_shared(const Instruction &one, const AllocaInst *variable) const {
        const auto *loop = around(one.getParent());
        return loop && is_shared(*loop, variable) && is_stored_in(*loop->first, variable);
    }

    void put_calls() {
        for (const auto &loop : found_)
            put_calls(loop);
    }

private:
    using Found = std::pair<Loop *, Lanes>;

    static bool is_simple(const Loop &loop) { return loop.getLoopPredecessor() && body(loop) && loop.getUniqueExitBlock(); }

    // The first block of an iteration.
    static BasicBlock *body(const Loop &loop) {
        BasicBlock *inside = nullptr;
        for (BasicBlock *next : successors(loop.getHeader()))
            if (loop.contains(next) && next != loop.getHeader()) {
                if (inside)
                    return nullptr;
                inside = next;
            }
        return inside;
    }

    const Found *around(const BasicBlock *block) const {
        for (const Found &loop : found_)
            if (loop.first->contains(block))
                return &loop;
        return nullptr;
    }

    bool is_shared(const Found &loop, const AllocaInst *variable) const {
        const auto line = lines_.find(variable);
        return line != lines_.end() && line->second < loop.second.line;
    }

    static bool is_stored_in(const Loop &loop, const AllocaInst *variable) {
        SmallVector<const Value *, 8> left(1, variable);
        while (!left.empty()) {
            const Value *pointer = left.pop_back_val();
            for (const User *user : pointer->users()) {
                const auto *one = dyn_cast<Instruction>(user);
                if (isa<GetElementPtrInst>(user) || isa<BitCastInst>(user))
                    left.push_back(user);
                else if (one && !isa<LoadInst>(one) && !isa<DbgInfoIntrinsic>(one) && loop.contains(one->getParent()))
                    return true;
            }
        }
        return false;
    }

    FunctionCallee callee(const char *name, ArrayRef<Type *> given) const {
        return function_.getParent()->getOrInsertFunction(name, FunctionType::get(Type::getVoidTy(function_.getContext()), given, false));
    }

    void put_calls(const Found &loop) {
        IRBuilder<> builder(loop.first->getLoopPredecessor()->getTerminator());
        Type *number = builder.getInt64Ty(), *address = PointerType::get(builder.getInt8Ty(), 0);
        builder.CreateCall(callee("taskback_lanes_begin", {number}), {builder.getInt64(loop.second.safelen)});
        put_ordered(*loop.first);
        builder.SetInsertPoint(&*body(*loop.first)->getFirstInsertionPt());
        builder.CreateCall(callee("taskback_lane", {}), {});
        for (Instruction &one : function_.getEntryBlock()) {
            auto *variable = dyn_cast<AllocaInst>(&one);
            const uint64_t size = variable ? size_of(variable, function_.getParent()->getDataLayout()) : 0;
            if (size && is_known_elsewhere(variable) && !is_shared(loop, variable) && is_stored_in(*loop.first, variable))
                builder.CreateCall(callee("taskback_lane_has", {address, number}),
                                   {builder.CreatePointerCast(variable, address), builder.getInt64(size)});
        }
        builder.SetInsertPoint(&*loop.first->getUniqueExitBlock()->getFirstInsertionPt());
        builder.CreateCall(callee("taskback_lanes_end", {}), {});
    }

    // Clang makes a function of an ordered block.
    void put_ordered(const Loop &loop) {
        std::vector<CallInst *> blocks;
        for (BasicBlock *block : loop.blocks())
            for (Instruction &one : *block) {
                auto *call = dyn_cast<CallInst>(&one);
                const Function *called = call ? call->getCalledFunction() : nullptr;
                if (called && begins(called->getName(), "__captured_stmt"))
                    blocks.push_back(call);
            }
        for (CallInst *call : blocks) {
            IRBuilder<> builder(call);
            builder.CreateCall(callee("taskback_lane_in_order", {}), {});
            builder.SetInsertPoint(call->getNextNode());
            builder.CreateCall(callee("taskback_lane_out_of_order", {}), {});
        }
    }

    Function &function_;
    std::unique_ptr<DominatorTree> tree_;
    std::unique_ptr<LoopInfo> loops_;
    std::vector<Found> found_;
    DenseMap<const Value *, unsigned> lines_;
};

}  // namespace
