{-# OPTIONS --safe --without-K #-}
-- A step changes at most one register, the program counter, the last written register, and four
-- bytes. It is shown of the outcome of each action, one line an action, and then of each case of a
-- step.
module laws.SmallSteps where
open import Prelude
open import Data.Empty using (⊥-elim)
open import Relation.Binary.PropositionalEquality using (sym; trans; cong; subst)
open import rrs-instruction.Declared
open import rrs-instruction.Encodings
open import rrs-instruction.Table
open import rrs-memory.Bytes using (little-endian; is-among; store; all-writable)
open import rrs-lib.Machine
open import rrs-lib.Steps
open import laws.Numbers
open import Reading.Decoding using (numbered; each-at; each-passes)

-- ---- what is kept

-- From s to t no register changes but the one that t has as the last written, no byte but those of
-- some addresses, none but four in a row, and no address becomes writable or read-only. Place r of
-- the list of registers is register r + 1.
record Keeps (stored : ℕ → Bool) (s t : State) : Set where
  field
    registers-but-one : (r : ℕ) → t .last· ≢ Some (suc r) → slice-index (t .registers·) r
        ≡ slice-index (s .registers·) r
    bytes-but-stored : (a : ℕ) → stored a ≡ false → t .bytes· a ≡ s .bytes· a
    from : ℕ
    bytes-but-four : (a : ℕ) → is-among from 4 a ≡ false → t .bytes· a ≡ s .bytes· a
    writable-same : t .writable· ≡ s .writable·
open Keeps public

-- the registers change so, and nothing else does but the program counter and the last written
keeps-memory : {stored : ℕ → Bool} {s t : State} → t .bytes· ≡ s .bytes· → t .writable·
  ≡ s .writable·
  → ((r : ℕ) → t .last· ≢ Some (suc r) → slice-index (t .registers·) r
      ≡ slice-index (s .registers·) r) → Keeps stored s t
keeps-memory b w k = record { registers-but-one = k ; bytes-but-stored = λ a _ → cong (λ f → f a) b
  ; from = 0 ; bytes-but-four = λ a _ → cong (λ f → f a) b ; writable-same = w }

none : ℕ → Bool
none a = false

same : {stored : ℕ → Bool} {s : State} → Keeps stored s s
same = keeps-memory refl refl λ _ _ → refl

set-elsewhere : (xs : List ℕ) (i r x : ℕ) → r ≢ i → slice-index (slice-set xs i x) r
  ≡ slice-index xs r
set-elsewhere [] i r x n = refl
set-elsewhere (y ∷ ys) zero zero x n = ⊥-elim (n refl)
set-elsewhere (y ∷ ys) zero (suc r) x n = refl
set-elsewhere (y ∷ ys) (suc i) zero x n = refl
set-elsewhere (y ∷ ys) (suc i) (suc r) x n = set-elsewhere ys i r x λ e → n (cong suc e)

puts : {stored : ℕ → Bool} {s : State} (rd : ℕ) (z : ℤ) → Keeps stored s (put s rd z)
puts zero z = same
puts {s = s} (suc i) z = keeps-memory refl refl λ r n → set-elsewhere (s .registers·) i r _ λ e
  → n (cong (λ i → Some (suc i)) (sym e))

-- setting the program counter keeps the rest
moves : {stored : ℕ → Bool} {s t : State} (x : ℕ) → Keeps stored s t → Keeps stored s (with-pc t x)
moves x k = record { registers-but-one = k .registers-but-one ; bytes-but-stored =
  k .bytes-but-stored
  ; from = k .from ; bytes-but-four = k .bytes-but-four ; writable-same = k .writable-same }

-- ---- the outcome of each kind of action

branches : {stored : ℕ → Bool} {s : State} (taken : Bool) (imm : ℤ)
  → Keeps stored s (branch-outcome taken imm s .after·)
branches true imm = moves _ same
branches false imm = same

loads : {stored : ℕ → Bool} {s : State} (n : ℕ) (extended : ℕ → ℤ) (rd address : ℕ)
  → Keeps stored s (load-outcome n extended rd address s .after·)
loads {s = s} n extended rd address with address % n == 0 | little-endian (s .bytes·) address n
... | false | _ = same
... | true | None = same
... | true | Some x = puts rd (extended x)

fewer : (a n b : ℕ) → nat-le n 4 ≡ true → is-among a 4 b ≡ false → is-among a n b ≡ false
fewer a n b small e with nat-le a b
... | false = refl
... | true = false-test (N.≤-trans (N.+-monoˡ-≤ a (N.≤-pred (test< n 5 small))) (test≮ b (a + 4) e))

stores : {s : State} (n x address : ℕ) → nat-le n 4 ≡ true
  → Keeps (is-among address n) s (store-outcome n x address s .after·)
stores {s} n x address small with address % n == 0 | all-writable (s .writable·) address n
... | false | _ = same
... | true | false = same
... | true | true = record { registers-but-one = λ _ _ → refl ; bytes-but-stored = elsewhere
  ; from = address ; bytes-but-four = λ a e → elsewhere a (fewer address n a small e)
      ; writable-same = refl }
  where
  elsewhere : (a : ℕ) → is-among address n a ≡ false → store (s .bytes·) address n x a ≡ s .bytes· a
  elsewhere a e = cong (λ b → if b then Some (x / 256 ^ (a - address) % 256) else s .bytes· a) e

-- stores have four bytes at most
sized : Action → Bool
sized (Store n) = nat-le n 4
sized _ = true
row-sized : (row : Row) → sized (table row .action·) ≡ true
row-sized row = each-at (table row .number· - 1)
  (each-passes (λ row → sized (table row .action·)) all-rows refl) (numbered row)

reg-cleared : (s : State) (r : ℕ) → reg (cleared s) r ≡ reg s r
reg-cleared s zero = refl
reg-cleared s (suc r) = refl

-- what an action leaves, from the state in which no register is the last written
kept-by : (action : Action) (f : Fields) (s : State) {o : Outcome} → sized action ≡ true
  → outcome-by action f (cleared s) ≡ Some o → Keeps (stored-by action f s) (cleared s) (o .after·)
kept-by (OnRegisters op) (R f) s _ refl = puts (f .rd·) _
kept-by (OnImmediate op) (I f) s _ refl = puts (f .rd·) _
kept-by (OnShamt op) (IShamt f) s _ refl = puts (f .rd·) _
kept-by LoadUpper (U f) s _ refl = puts (f .rd·) _
kept-by AddUpperToPc (U f) s _ refl = puts (f .rd·) _
kept-by (BranchIf test) (B f) s _ refl = branches (test _ _) _
kept-by (BranchUnless test) (B f) s _ refl = branches (not (test _ _)) _
kept-by (Load n extended) (I f) s _ refl = loads n extended _ _
kept-by (Store n) (S f) s small refl = subst
  (λ x → Keeps (is-among (plus-immediate x (f .imm·)) n) (cleared s)
      (store-outcome n y (plus-immediate (reg (cleared s) (f .rs1·)) (f .imm·))
      (cleared s) .after·))
  (reg-cleared s (f .rs1·)) (stores n y (plus-immediate (reg (cleared s) (f .rs1·)) (f .imm·))
      small)
  where y = reg (cleared s) (f .rs2·)
kept-by JumpAndLink (J f) s _ refl = moves _ (puts (f .rd·) _)
kept-by JumpAndLinkRegister (I f) s _ refl = moves _ (puts (f .rd·) _)
kept-by NoEffect (I f) s _ refl = same
kept-by CallEnvironment (I f) s _ refl = same
kept-by Break (I f) s _ refl = same

-- ---- the law

-- so does a step, from the state that it began in
advances : {stored : ℕ → Bool} (s : State) {u : State} (answer : Answer)
  → Keeps stored (cleared s) u → Keeps stored s (advanced u answer)
advances s {u} answer k = by answer where
  begun : (t : State) → Keeps _ (cleared s) t → Keeps _ s t
  begun t k = record { registers-but-one = k .registers-but-one ; bytes-but-stored =
      k .bytes-but-stored
    ; from = k .from ; bytes-but-four = k .bytes-but-four ; writable-same = k .writable-same }
  by : (answer : Answer) → Keeps _ s (advanced u answer)
  by (Ok true) = begun u k
  by (Ok false) = begun _ (moves _ k)
  by (Err e) = begun u k

kept-from : {stored : ℕ → Bool} (s : State) → Keeps stored s (cleared s)
kept-from s = keeps-memory refl refl λ _ _ → refl

-- From s to t at most one register changes, the program counter, the last written register and the
-- four bytes from one address on.
record ChangesFour (s t : State) : Set where
  field
    register : (r : ℕ) → t .last· ≢ Some r → reg t r ≡ reg s r
    address : ℕ
    bytes : (a : ℕ) → is-among address 4 a ≡ false → t .bytes· a ≡ s .bytes· a
    writable : t .writable· ≡ s .writable·

register-kept : {stored : ℕ → Bool} {s t : State} → Keeps stored s t → (r : ℕ) → t .last· ≢ Some r
  → reg t r ≡ reg s r
register-kept k zero _ = refl
register-kept k (suc r) n = k .registers-but-one r n

four : {stored : ℕ → Bool} {s t : State} → Keeps stored s t → ChangesFour s t
four k = record { register = register-kept k ; address = k .from ; bytes = k .bytes-but-four
  ; writable = k .writable-same }

little : {stored : ℕ → Bool} {s t : State} → Keeps stored s t
  → ((a : ℕ) → stored a ≡ true → StepStoresTo s a) → ChangesLittle s t
little {stored} k to = record { registers-kept· = register-kept k
  ; bytes-kept· = λ a n → k .bytes-but-stored a (by (stored a) refl n) ; writable-kept· =
      k .writable-same }
  where
  by : {a : ℕ} (b : Bool) → stored a ≡ b → ¬ StepStoresTo _ a → stored a ≡ false
  by true e n = ⊥-elim (n (to _ e))
  by false e n = e

fetched : (s : State) {w : ℕ} → s .pc· % 4 ≡ 0 → little-endian (s .bytes·) (s .pc·) 4 ≡ Some w
  → next-word s ≡ Some w
fetched s e l = trans (cong (λ x → if x == 0 then little-endian (s .bytes·) (s .pc·) 4 else None)
  e) l

changes-four : {s t : State} {answer : StepAnswer} → Step s t answer → ChangesFour s t
changes-four {s} (Misaligned _ refl _) = four {none} (kept-from s)
changes-four {s} (Unmapped _ _ refl _) = four {none} (kept-from s)
changes-four {s} (Illegal _ _ _ _ refl _) = four {none} (kept-from s)
changes-four {s} (Legal _ row f _ a _ _ _ x refl _) = four
  (advances s a (kept-by (table row .action·) f s (row-sized row) x))

changes-little : {s t : State} {answer : StepAnswer} → Step s t answer → ChangesLittle s t
changes-little {s} (Misaligned _ refl _) = little {none} (kept-from s) λ a ()
changes-little {s} (Unmapped _ _ refl _) = little {none} (kept-from s) λ a ()
changes-little {s} (Illegal _ _ _ _ refl _) = little {none} (kept-from s) λ a ()
changes-little {s} (Legal w row f _ a e l d x refl _) = little
  (advances s a (kept-by (table row .action·) f s (row-sized row) x))
  λ _ e' → record { w· = w ; row· = row ; fields· = f ; fetched· = fetched s e l ; decoded· = d
      ; stored· = e' }
