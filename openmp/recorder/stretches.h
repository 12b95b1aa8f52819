// Loads and stores in loops: in front of each stands the look whether it is the next one of a row that the recorder has
// under way for this place, or is told already; only else the recorder is called. recorder.h has the other side.
#pragma once

#include "llvm/Transforms/Utils/BasicBlockUtils.h"

#include "known.h"

namespace {

class Stretches {
public:
    explicit Stretches(Function &function) : function_(function) {
        const Triple triple(function.getParent()->getTargetTriple());
        if (!triple.isOSBinFormatELF() || !triple.isArch64Bit() || !triple.isLittleEndian())
            return;
        const DominatorTree tree(function);
        const LoopInfo loops(tree);
        for (const BasicBlock &block : function)
            if (loops.getLoopFor(&block))
                inside_.insert(&block);
    }

    // Whether the access is one of these; then `put_calls` tells it.
    bool add(Instruction &one, Value *pointer, uint64_t size) {
        if (one.isAtomic() || found_.size() == MOST || !inside_.count(one.getParent()))
            return false;
        found_.push_back({&one, pointer, size});
        return true;
    }

    // Blocks are split, so that nothing else may be looked up by them afterwards.
    void put_calls(unsigned &number) {
        put_ends_of_others();
        if (found_.empty())
            return;
        put_ends(&*function_.getEntryBlock().getFirstInsertionPt(), number);
        for (BasicBlock &block : function_)
            if (auto *back = dyn_cast<ReturnInst>(block.getTerminator()))
                put_ends(back, number);
        for (const Found &found : found_)
            put_look(found, number++ % MOST);
    }

private:
    struct Found {
        Instruction *one;
        Value *pointer;
        uint64_t size;
    };
    static constexpr unsigned MOST = 64, NEXT = 0, LOW = 1, SIZE = 2, PARTS = 3;
    static constexpr uint64_t FARTHEST = 1 << 15;

    // A part of the thread's stretch of this number. They are variables of the program that is run, for its libraries too.
    Value *part(IRBuilder<> &builder, unsigned number, unsigned which) {
        Module &module = *function_.getParent();
        Type *all = ArrayType::get(builder.getInt64Ty(), MOST * PARTS);
        auto *variable = module.getNamedGlobal("taskback_stretches");
        if (!variable) {
            variable = new GlobalVariable(module, all, false, GlobalValue::ExternalLinkage, nullptr, "taskback_stretches", nullptr,
                                          GlobalValue::InitialExecTLSModel);
            if (module.getPICLevel() == PICLevel::NotPIC || module.getPIELevel() != PIELevel::Default) {
                variable->setThreadLocalMode(GlobalValue::LocalExecTLSModel);
                variable->setDSOLocal(true);
            }
        }
        return builder.CreateConstInBoundsGEP2_64(all, variable, 0, number * PARTS + which);
    }

    // A call's rows are its own: what another call of the function, or one that has the same numbers, left isn't gone on with.
    void put_ends(Instruction *before, unsigned number) {
        IRBuilder<> builder(before);
        for (std::size_t i = 0; i < found_.size(); i++)
            builder.CreateStore(builder.getInt64(0), part(builder, (number + i) % MOST, NEXT));
    }

    // Where calls have ended without coming back here.
    void put_ends_of_others() {
        for (Instruction &one : instructions(function_)) {
            const auto *call = dyn_cast<CallBase>(&one);
            if (!isa<LandingPadInst>(one) && !(call && call->hasFnAttr(Attribute::ReturnsTwice)))
                continue;
            IRBuilder<> builder(isa<LandingPadInst>(one) ? &*one.getParent()->getFirstInsertionPt() : one.getNextNode());
            builder.CreateCall(function_.getParent()->getOrInsertFunction("taskback_stretches_end", builder.getVoidTy()));
        }
    }

    BasicBlock *block(const char *name, const Found &found, IRBuilder<> &builder) {
        BasicBlock *made = BasicBlock::Create(function_.getContext(), name, &function_);
        builder.SetInsertPoint(made);
        builder.SetCurrentDebugLocation(found.one->getDebugLoc());
        return made;
    }

    void put_look(const Found &found, unsigned number) {
        BasicBlock *head = found.one->getParent(), *behind = SplitBlock(head, found.one);
        IRBuilder<> builder(head);
        BasicBlock *next = put_next(found, number, behind, builder);
        next->moveBefore(behind);
        BasicBlock *other = put_call(found, number, behind, builder);
        if (isa<LoadInst>(found.one))
            other = put_told(found, number, behind, other, builder);
        head->getTerminator()->eraseFromParent();
        builder.SetInsertPoint(head);
        builder.SetCurrentDebugLocation(found.one->getDebugLoc());
        Value *at = builder.CreatePtrToInt(found.pointer, builder.getInt64Ty());
        builder.CreateCondBr(builder.CreateICmpEQ(at, builder.CreateLoad(builder.getInt64Ty(), part(builder, number, NEXT))), next, other);
    }

    // The row and its event become longer, up to where the event's size might become too large.
    BasicBlock *put_next(const Found &found, unsigned number, BasicBlock *behind, IRBuilder<> &builder) {
        BasicBlock *full = block("full", found, builder);
        builder.CreateStore(builder.getInt64(0), part(builder, number, NEXT));
        builder.CreateBr(behind);
        BasicBlock *made = block("next", found, builder);
        Type *word = builder.getInt64Ty(), *half = builder.getInt16Ty();
        Value *next = builder.CreateAdd(builder.CreatePtrToInt(found.pointer, word), builder.getInt64(found.size));
        builder.CreateStore(next, part(builder, number, NEXT));
        Value *size = builder.CreateIntToPtr(builder.CreateLoad(word, part(builder, number, SIZE)), PointerType::get(half, 0));
        builder.CreateStore(builder.CreateAdd(builder.CreateLoad(half, size), builder.getInt16(static_cast<uint16_t>(found.size))), size);
        Value *rest = builder.CreateAnd(next, builder.getInt64(FARTHEST - 1));
        builder.CreateCondBr(builder.CreateICmpEQ(rest, builder.getInt64(0)), full, behind);
        return made;
    }

    // What is loaded again is told.
    BasicBlock *put_told(const Found &found, unsigned number, BasicBlock *behind, BasicBlock *unknown, IRBuilder<> &builder) {
        BasicBlock *made = block("told", found, builder);
        Type *word = builder.getInt64Ty();
        Value *at = builder.CreatePtrToInt(found.pointer, word);
        Value *is_behind_low = builder.CreateICmpUGE(at, builder.CreateLoad(word, part(builder, number, LOW)));
        Value *end = builder.CreateAdd(at, builder.getInt64(found.size));
        Value *is_told = builder.CreateICmpULE(end, builder.CreateLoad(word, part(builder, number, NEXT)));
        builder.CreateCondBr(builder.CreateAnd(is_behind_low, is_told), behind, unknown);
        return made;
    }

    BasicBlock *put_call(const Found &found, unsigned number, BasicBlock *behind, IRBuilder<> &builder) {
        BasicBlock *made = block("unknown", found, builder);
        Value *bytes = builder.CreatePointerCast(found.pointer, builder.getInt8PtrTy());
        const auto name = (isa<StoreInst>(found.one) ? "taskback_store" : "taskback_load") + std::to_string(found.size);
        auto callee = function_.getParent()->getOrInsertFunction(name, builder.getVoidTy(), bytes->getType(), builder.getInt64Ty());
        builder.CreateCall(callee, {bytes, builder.getInt64(number)});
        builder.CreateBr(behind);
        return made;
    }

    Function &function_;
    DenseSet<const BasicBlock *> inside_;
    std::vector<Found> found_;
};

}  // namespace
