{-# OPTIONS --safe --without-K #-}
-- Texts, steps and runs, as the definitions have them: each is total, and what it returns comes
-- with the proof that the definitions say so.
module Reading.Steps where

open import Prelude
open import Data.Empty using (⊥-elim)
open import Data.Sum.Base using (inj₁; inj₂)
open import Relation.Binary.PropositionalEquality using (sym; trans; cong; subst)
open import Relation.Nullary using (Dec; yes; no)
open import rrs-instruction.Encodings
open import rrs-instruction.Table
open import rrs-memory.Bytes using (ByteMap; little-endian)
open import rrs-memory.AccessLists using (Access)
open import rrs-lib.Declared
  using (InstructionException; IllegalInstruction; FetchError; AlignmentFault)
open import rrs-lib.Machine
open import rrs-lib.Steps
open import rrs-lib.Accesses
open import rrs-lib.Texts using (text-of; text-by)
open import Reading.Decoding

-- ---- every row can be executed, and has a text

-- the format of what a row does
format-by : Action → Format
format-by (OnRegisters op) = InR
format-by (OnImmediate op) = InI
format-by (OnShamt op) = InIShamt
format-by LoadUpper = InU
format-by AddUpperToPc = InU
format-by (BranchIf p) = InB
format-by (BranchUnless p) = InB
format-by (Load n extended) = InI
format-by (Store n) = InS
format-by JumpAndLink = InJ
format-by JumpAndLinkRegister = InI
format-by NoEffect = InI
format-by CallEnvironment = InI
format-by Break = InI

-- is the row's own
format-agrees : (row : Row) → table row .format· ≡ format-by (table row .action·)
format-agrees = λ
  { Row.Add → refl ; Row.Sub → refl ; Row.Sll → refl ; Row.Slt → refl ; Row.Sltu → refl
  ; Row.Xor → refl ; Row.Srl → refl ; Row.Sra → refl ; Row.Or → refl ; Row.And → refl
  ; Row.Addi → refl ; Row.Slli → refl ; Row.Slti → refl ; Row.Sltiu → refl ; Row.Xori → refl
  ; Row.Srli → refl ; Row.Srai → refl ; Row.Ori → refl ; Row.Andi → refl ; Row.Lui → refl
  ; Row.Auipc → refl ; Row.Beq → refl ; Row.Bne → refl ; Row.Blt → refl ; Row.Bltu → refl
  ; Row.Bge → refl ; Row.Bgeu → refl ; Row.Lb → refl ; Row.Lbu → refl ; Row.Lh → refl
  ; Row.Lhu → refl ; Row.Lw → refl ; Row.Sb → refl ; Row.Sh → refl ; Row.Sw → refl
  ; Row.Jal → refl ; Row.Jalr → refl ; Row.Mul → refl ; Row.Mulh → refl ; Row.Mulhu → refl
  ; Row.Mulhsu → refl ; Row.Div → refl ; Row.Divu → refl ; Row.Rem → refl ; Row.Remu → refl
  ; Row.Fence → refl ; Row.Ecall → refl ; Row.Ebreak → refl }

outcome-of : (a : Action) (f : Fields) (s : State) → format-of f ≡ format-by a
  → Σ Outcome λ o → outcome-by a f s ≡ Some o
outcome-of (OnRegisters op) (R f) s e = _ , refl
outcome-of (OnImmediate op) (I f) s e = _ , refl
outcome-of (OnShamt op) (IShamt f) s e = _ , refl
outcome-of LoadUpper (U f) s e = _ , refl
outcome-of AddUpperToPc (U f) s e = _ , refl
outcome-of (BranchIf p) (B f) s e = _ , refl
outcome-of (BranchUnless p) (B f) s e = _ , refl
outcome-of (Load n extended) (I f) s e = _ , refl
outcome-of (Store n) (S f) s e = _ , refl
outcome-of JumpAndLink (J f) s e = _ , refl
outcome-of JumpAndLinkRegister (I f) s e = _ , refl
outcome-of NoEffect (I f) s e = _ , refl
outcome-of CallEnvironment (I f) s e = _ , refl
outcome-of Break (I f) s e = _ , refl

written : (a : Action) (row : Row) (f : Fields) (pc : ℕ) → format-of f ≡ format-by a
  → Σ (List ℕ) λ text → text-by a row f pc ≡ Some text
written (OnRegisters op) row (R f) pc e = _ , refl
written (OnImmediate op) row (I f) pc e = _ , refl
written (OnShamt op) row (IShamt f) pc e = _ , refl
written LoadUpper row (U f) pc e = _ , refl
written AddUpperToPc row (U f) pc e = _ , refl
written (BranchIf p) row (B f) pc e = _ , refl
written (BranchUnless p) row (B f) pc e = _ , refl
written (Load n extended) row (I f) pc e = _ , refl
written (Store n) row (S f) pc e = _ , refl
written JumpAndLink row (J f) pc e = _ , refl
written JumpAndLinkRegister row (I f) pc e = _ , refl
written NoEffect row (I f) pc e = _ , refl
written CallEnvironment row (I f) pc e = _ , refl
written Break row (I f) pc e = _ , refl

-- What there is, as the definition itself has it: where it had nothing, nothing would be found here,
-- whatever the proof's cases say.
there-is : {A : Set} (o : Option A) → (Σ A λ x → o ≡ Some x) → Σ A λ x → o ≡ Some x
there-is (Some x) _ = x , refl
there-is None (x , ())

-- what a row with its fields does to a state
executed : {w : ℕ} {row : Row} {f : Fields} → Decodes w row f → (s : State)
  → Σ Outcome λ o → execute row f s ≡ Some o
executed {row = row} {f} d s = there-is (execute row f s) (
  outcome-of (table row .action·) f s (trans (d .format·) (format-agrees row)))

-- the text of a row with its fields at an address
text : {w : ℕ} {row : Row} {f : Fields} → Decodes w row f → (pc : ℕ)
  → Σ (List ℕ) λ text → text-of row f pc ≡ Some text
text {row = row} {f} d pc = there-is (text-of row f pc) (
  written (table row .action·) row f pc (trans (d .format·) (format-agrees row)))

-- ---- one step

-- what the step from a state leaves, its answer and its accesses
record Stepped (s : State) : Set where
  constructor stepped
  field
    after : State
    answer : StepAnswer
    accesses : List Access
    is-step : Step s after answer
    are-its : AccessesOf s accesses

step : (s : State) → Stepped s
step s with s .pc· % 4 ≡? 0
... | no n = stepped _ _ _ (Misaligned n refl refl) (OfNone n refl)
... | yes e = fetched (little-endian (s .bytes·) (s .pc·) 4) refl
  where
  fetched : (o : Option ℕ) → little-endian (s .bytes·) (s .pc·) 4 ≡ o → Stepped s
  fetched None l = stepped _ _ _ (Unmapped e l refl refl)
    (OfFetch e (subst (λ o → IfSome o IsIllegal) (sym l) tt) refl)
  fetched (Some w) l with decode w
  ... | inj₂ i = stepped _ _ _ (Illegal w e l i refl refl)
    (OfFetch e (subst (λ o → IfSome o IsIllegal) (sym l) i) refl)
  ... | inj₁ (row , f , d) with executed d (cleared s)
  ...   | o , x = stepped (advanced (o .after·) (o .answer·)) (answered (o .answer·)) _
    (Legal w row f (o .after·) (o .answer·) e l d x refl refl) (OfRow w row f e l d refl)

-- ---- runs

-- What n steps from a state leave, their answers and their accesses. They go on after exceptions.
record Ran (n : ℕ) (s : State) : Set where
  constructor ran
  field
    end : State
    answers : List StepAnswer
    accesses : List Access
    as-many : length answers ≡ n
    is-run : Run s answers end
    are-its : AccessesOfRun s answers accesses

-- What the steps leave that come before an exception or a limit, how many they are, the exception
-- if there is one, and their accesses.
record RanUntil (limit : ℕ) (s : State) : Set where
  constructor ran-until
  field
    end : State
    steps : ℕ
    exception : Option InstructionException
    accesses : List Access
    is-run : RunUntil limit s steps exception end
    are-its : AccessesOfRun s (answers-of-run steps exception) accesses

-- A run. Where n steps are left, the state may be written anew, as an equal one that is quicker to
-- read.
module _ (anew : ℕ → State → State) (equal : (n : ℕ) (s : State) → anew n s ≡ s) where
  run : (n : ℕ) (s : State) → Ran n s
  run zero s = ran s [] [] refl refl refl
  run (suc n) s with step s
  ... | stepped t answer accesses is its with run n (anew n t)
  ...   | ran u answers others many so theirs = ran u (answer ∷ answers) (accesses ++ others)
    (cong suc many)
    (t , is , subst (λ m → Run m answers u) (equal n t) so)
    (t , accesses , others , is , its
    , subst (λ m → AccessesOfRun m answers others) (equal n t) theirs , refl)

  -- A run until an exception or a limit, with the number of the steps before.
  run-until : (limit : ℕ) (s : State) → RanUntil limit s
  run-until zero s = ran-until s 0 None [] (refl , refl) refl
  run-until (suc n) s with step s
  ... | stepped t (Err e) accesses is its = ran-until t 0 (Some e) accesses
    (lt refl , s , refl , is) (t , accesses , [] , is , its , refl , at-end accesses)
    where
    at-end : {A : Set} (xs : List A) → xs ≡ xs ++ []
    at-end [] = refl
    at-end (x ∷ xs) = cong (x ∷_) (at-end xs)
  ... | stepped t (Ok tt) accesses is its with run-until n (anew n t)
  ...   | ran-until u k None others (many , so) theirs =
    ran-until u (suc k) None (accesses ++ others)
    (cong suc many , t , is , subst (λ m → RunsOk k m u) (equal n t) so)
    (t , accesses , others , is , its
    , subst (λ m → AccessesOfRun m (replicate k (Ok tt)) others) (equal n t) theirs , refl)
  ...   | ran-until u k (Some e) others (lt fewer , m , so , last) theirs =
    ran-until u (suc k) (Some e) (accesses ++ others)
    (lt fewer , m , (t , is , subst (λ m' → RunsOk k m' m) (equal n t) so) , last)
    (t , accesses , others , is , its
    , subst (λ m' → AccessesOfRun m' (answers-of-run k (Some e)) others) (equal n t) theirs , refl)
