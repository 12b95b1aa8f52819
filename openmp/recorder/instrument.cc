// A pass of clang: a call in front of each load and store that somebody else may see. The coverage's calls, which it stands
// for, are made for all variables of a function, also for those whose address nobody else can have.
#include "llvm/Passes/PassBuilder.h"
#include "llvm/Passes/PassPlugin.h"

#include "known.h"
#include "stretches.h"

namespace {

constexpr uint64_t LONGEST = 16, SHORT_COPY = 64;

// Whether a call sets the variable to whether the thread does the last iteration.
bool tells_last(const User *user, const Value *variable) {
    const auto *call = dyn_cast<CallBase>(user);
    const StringRef name = call && call->getCalledFunction() ? call->getCalledFunction()->getName() : "";
    const unsigned at = begins(name, "__kmpc_for_static_init") ? 3 : begins(name, "__kmpc_dispatch_next") ? 2 : 0;
    return at != 0 && call->getArgOperand(at) == variable;
}

// Where a thread goes on that does the last iteration, and where all go on: it alone writes what is `lastprivate`.
std::vector<BranchInst *> branches_of_last(Function &function) {
    std::vector<BranchInst *> found;
    for (Instruction &one : instructions(function)) {
        auto *branch = dyn_cast<BranchInst>(&one);
        auto *test = branch && branch->isConditional() ? dyn_cast<ICmpInst>(branch->getCondition()) : nullptr;
        auto *load = test && test->getPredicate() == CmpInst::ICMP_NE ? dyn_cast<LoadInst>(test->getOperand(0)) : nullptr;
        auto *variable = load ? dyn_cast<AllocaInst>(load->getPointerOperand()) : nullptr;
        if (variable && any_of(variable->users(), [&](const User *user) { return tells_last(user, variable); }))
            found.push_back(branch);
    }
    return found;
}

void put_call_of_last(Module &module, BasicBlock *block, const char *name) {
    IRBuilder<> builder(&*block->getFirstInsertionPt());
    builder.CreateCall(module.getOrInsertFunction(name, FunctionType::get(builder.getVoidTy(), false)), {});
}

class Instrument : public PassInfoMixin<Instrument> {
public:
    explicit Instrument(bool is_optimised) : is_optimised_(is_optimised) {}

    static bool isRequired() { return true; }

    PreservedAnalyses run(Module &module, ModuleAnalysisManager &) {
        for (Function &function : module)
            if (!function.isDeclaration() && !function.hasAvailableExternallyLinkage() && is_of_program(function))
                take(function);
            else
                function.removeFnAttr(Attribute::SanitizeThread);
        if (!is_optimised_)
            tell(module);
        return PreservedAnalyses::none();
    }

private:
    // Which variables of a function others may know, and which hold the address of a copy that they can't.
    struct Known {
        DenseMap<const AllocaInst *, bool> elsewhere, hidden;
    };

    // By this the recorder knows that the pass tells what falls to who did a loop's last iteration, as code that isn't
    // optimised has it.
    static void tell(Module &module) {
        Constant *one = ConstantInt::get(Type::getInt8Ty(module.getContext()), 1);
        if (!module.getNamedGlobal("taskback_tells_last"))
            new GlobalVariable(module, one->getType(), true, GlobalValue::WeakODRLinkage, one, "taskback_tells_last");
    }

    static bool is_of_program(const Function &function) {
        StringRef name = function.getName();
        return !begins(name, "__sanitizer_") && !begins(name, "__tsan_") && !begins(name, "tsan.") && !is_map(function);
    }

    void take(Function &function) {
        std::vector<std::pair<Instruction *, Value *>> found;
        std::vector<Filling> fillings;
        Known known;
        const bool is_loop = has_loop(function);
        const auto lasts = is_loop && !is_optimised_ ? branches_of_last(function) : std::vector<BranchInst *>();
        std::vector<Instruction *> restores;
        Simd simd(function, is_optimised_);
        for (BasicBlock &block : function) {
            DenseSet<const Value *> loaded;
            for (Instruction &one : block) {
                Value *pointer = isa<LoadInst>(one) ? cast<LoadInst>(one).getPointerOperand()
                                 : isa<StoreInst>(one) ? cast<StoreInst>(one).getPointerOperand() : nullptr;
                if (begins_part(one, pointer, is_loop))
                    loaded.clear();
                if (isa<StoreInst>(one))
                    loaded.erase(pointer);
                auto is_told = [&](const Value *to) { return is_seen(one, to, known, is_loop, simd); };
                if (const auto *call = dyn_cast<IntrinsicInst>(&one))
                    if (call->getIntrinsicID() == Intrinsic::stackrestore)
                        restores.push_back(&one);
                if (pointer && is_told(pointer) && !(isa<LoadInst>(one) && !one.isAtomic() && !loaded.insert(pointer).second))
                    found.emplace_back(&one, pointer);
                add_filling(one, is_told, fillings);
            }
        }
        Stretches stretches(function);
        for (auto &access : found) {
            Instruction &one = *access.first;
            const bool is_lane = simd.is_lanes(one), may_go_on = !is_lane && is_element(size_of_access(one));
            if (!may_go_on || is_number(one, access.second, is_loop) || !stretches.add(one, access.second, size_of_access(one)))
                put_call(one, access.second, is_lane ? IN_LANE : ELSEWHERE);
        }
        simd.put_calls();
        for (Instruction *one : restores)
            put_call_of_restore(*one);
        for (const Filling &filling : fillings)
            replace(filling);
        for (BranchInst *branch : lasts) {
            put_call_of_last(*function.getParent(), branch->getSuccessor(0), "taskback_last_begin");
            put_call_of_last(*function.getParent(), branch->getSuccessor(1), "taskback_last_end");
        }
        stretches.put_calls(stretch_count_);
    }

    // Whether the recorder may begin a new part of the task there: up to it a pointer that is loaded from again tells nothing.
    static bool begins_part(const Instruction &one, const Value *pointer, bool is_loop) {
        if (pointer)
            return one.isAtomic() || is_number(one, pointer, is_loop);
        return (isa<CallBase>(one) && !keeps_nothing(&one)) || one.isAtomic();
    }

    // Whether a store may be that of a loop's number.
    static bool is_number(const Instruction &one, const Value *pointer, bool is_loop) {
        const auto *variable = dyn_cast<AllocaInst>(pointer);
        return is_loop && variable && isa<StoreInst>(one) && variable->getAllocatedType()->isIntegerTy();
    }

    bool is_seen(const Instruction &one, const Value *pointer, Known &known, bool is_loop, const Simd &simd) const {
        const Value *object = getUnderlyingObject(pointer, 0);
        if (!is_optimised_ && (is_in_new_record(pointer) || (isa<LoadInst>(one) && is_of_record(cast<LoadInst>(one)))))
            return false;
        if (!is_optimised_ && !simd.is_lanes(one) && is_in_hidden_copy(object, known.hidden))
            return false;
        if (const auto *constant = dyn_cast<GlobalVariable>(object))
            return !constant->isConstant();
        const auto *variable = dyn_cast<AllocaInst>(object);
        if (!variable || simd.is_lanes_shared(one, variable))
            return true;
        if (is_number(one, pointer, is_loop))
            return true;
        auto added = known.elsewhere.try_emplace(variable, true);
        if (added.second)
            added.first->second = is_known_elsewhere(variable);
        return added.first->second;
    }

    // Whether it is a copy in the task's record whose address nobody else has.
    static bool is_in_hidden_copy(const Value *object, DenseMap<const AllocaInst *, bool> &hidden) {
        const auto *load = dyn_cast<LoadInst>(object);
        const auto *variable = load ? dyn_cast<AllocaInst>(load->getPointerOperand()) : nullptr;
        if (!variable)
            return false;
        auto added = hidden.try_emplace(variable, false);
        if (added.second)
            added.first->second = is_of_hidden_copy(variable);
        return added.first->second;
    }

    // How the recorder's calls for loads and stores are named: those in a lane of a `simd` loop, and others.
    static constexpr const char *IN_LANE = "taskback_lane_", *ELSEWHERE = "__sanitizer_cov_";

    static uint64_t size_of_access(const Instruction &one) {
        const auto *store = dyn_cast<StoreInst>(&one);
        return one.getModule()->getDataLayout().getTypeStoreSize(store ? store->getValueOperand()->getType() : one.getType());
    }

    static bool is_element(uint64_t size) { return size <= LONGEST && size != 0 && (size & (size - 1)) == 0; }

    static void put_call(Instruction &one, Value *pointer, const char *kind) {
        put_call_of_size(one, pointer, ConstantInt::get(Type::getInt64Ty(one.getContext()), size_of_access(one)), isa<StoreInst>(one), kind);
    }

    static void put_call_of_size(Instruction &one, Value *pointer, Value *size, bool is_store, const char *kind = ELSEWHERE) {
        IRBuilder<> builder(&one);
        Value *given = as_bytes(builder, pointer), *bytes = builder.CreateZExtOrTrunc(size, builder.getInt64Ty());
        const auto *number = dyn_cast<ConstantInt>(size);
        if (number && is_element(number->getZExtValue())) {
            const auto name = (kind + (is_store ? Twine("store") : Twine("load")) + Twine(number->getZExtValue())).str();
            builder.CreateCall(one.getModule()->getOrInsertFunction(name, builder.getVoidTy(), given->getType()), {given});
            return;
        }
        auto callee = one.getModule()->getOrInsertFunction(is_store ? "taskback_store" : "taskback_load", builder.getVoidTy(),
                                                           given->getType(), bytes->getType());
        builder.CreateCall(callee, {given, bytes});
    }

    // Arrays whose length the program computes end there, as what a function has on the stack does with the function.
    static void put_call_of_restore(Instruction &one) {
        IRBuilder<> builder(&one);
        Value *saved = as_bytes(builder, cast<CallBase>(one).getArgOperand(0));
        builder.CreateCall(one.getModule()->getOrInsertFunction("taskback_stack_restored", builder.getVoidTy(), saved->getType()), {saved});
    }

    static Value *as_bytes(IRBuilder<> &builder, Value *pointer) {
        return builder.CreatePointerCast(pointer, PointerType::get(builder.getInt8Ty(), pointer->getType()->getPointerAddressSpace()));
    }

    // What fills or copies memory, of which nobody else sees one side or both: the other one alone is told.
    struct Filling {
        MemIntrinsic *call;
        bool is_from_told, is_to_told;
    };

    template <typename IsTold>
    static void add_filling(Instruction &one, IsTold is_told, std::vector<Filling> &found) {
        auto *call = dyn_cast<MemIntrinsic>(&one);
        if (!call || call->isVolatile() || call->getDestAddressSpace() != 0)
            return;
        const auto *copy = dyn_cast<MemTransferInst>(call);
        const bool is_from_told = copy && is_told(copy->getRawSource()), is_to_told = is_told(call->getRawDest());
        if (!is_to_told || (copy && !is_from_told))
            found.push_back({call, is_from_told, is_to_told});
    }

    static void replace(const Filling &filling) {
        MemIntrinsic &call = *filling.call;
        auto *copy = dyn_cast<MemTransferInst>(&call);
        if (filling.is_from_told)
            put_call_of_size(call, copy->getRawSource(), call.getLength(), false);
        if (filling.is_to_told)
            put_call_of_size(call, call.getRawDest(), call.getLength(), true);
        const auto *length = dyn_cast<ConstantInt>(call.getLength());
        IRBuilder<> builder(&call);
        Value *to = as_bytes(builder, call.getRawDest()), *from = copy ? as_bytes(builder, copy->getRawSource()) : nullptr;
        if (copy && length && length->getZExtValue() <= SHORT_COPY) {
            copy_by_parts(builder, to, from, length->getZExtValue());
        } else {
            Value *with = copy ? from : cast<MemSetInst>(call).getValue();
            Value *bytes = builder.CreateZExtOrTrunc(call.getLength(), builder.getInt64Ty());
            auto callee = call.getModule()->getOrInsertFunction(copy ? "taskback_copy" : "taskback_fill", builder.getVoidTy(),
                                                                to->getType(), with->getType(), bytes->getType());
            builder.CreateCall(callee, {to, with, bytes});
        }
        call.eraseFromParent();
    }

    // The two may be the same memory.
    static void copy_by_parts(IRBuilder<> &builder, Value *to, Value *from, uint64_t length) {
        std::vector<std::pair<Value *, uint64_t>> parts;
        for (uint64_t at = 0; at < length;) {
            uint64_t size = 8;
            while (size > length - at)
                size /= 2;
            Type *type = builder.getIntNTy(static_cast<unsigned>(size) * 8);
            Value *part = builder.CreateConstGEP1_64(builder.getInt8Ty(), from, at);
            parts.emplace_back(builder.CreateAlignedLoad(type, builder.CreatePointerCast(part, PointerType::get(type, 0)), Align(1)), at);
            at += size;
        }
        for (const auto &part : parts) {
            Value *place = builder.CreateConstGEP1_64(builder.getInt8Ty(), to, part.second);
            builder.CreateAlignedStore(part.first, builder.CreatePointerCast(place, PointerType::get(part.first->getType(), 0)), Align(1));
        }
    }

    const bool is_optimised_;
    unsigned stretch_count_ = 0;
};

}  // namespace

extern "C" LLVM_ATTRIBUTE_WEAK PassPluginLibraryInfo llvmGetPassPluginInfo() {
    return {LLVM_PLUGIN_API_VERSION, "taskback", "1", [](PassBuilder &builder) {
#if LLVM_VERSION_MAJOR >= 20
                builder.registerOptimizerLastEPCallback([](ModulePassManager &passes, OptimizationLevel level, ThinOrFullLTOPhase) {
#else
                builder.registerOptimizerLastEPCallback([](ModulePassManager &passes, OptimizationLevel level) {
#endif
                    passes.addPass(Instrument(level != OptimizationLevel::O0));
                });
            }};
}
