{-# OPTIONS --safe --without-K #-}
-- The program of seven words that adds up words reaches its end, the illegal instruction after it,
-- after 6n + 2 steps, and then x12 is the sum modulo 2 ^ 32. A round is six steps, one line each,
-- and the loop is an induction on n = x11.
module laws.SumLoop where
open import Prelude
open import Data.Empty using (⊥-elim)
open import Relation.Binary.PropositionalEquality using (sym; trans; cong; subst)
open import rrs-instruction.Declared
open import rrs-instruction.Words using (word)
open import rrs-instruction.Results using (add)
open import rrs-instruction.Encodings
open import rrs-instruction.Table
open import rrs-memory.Bytes using (ByteMap; little-endian; sum-if-both; at-place;
  EndsAtLastAddress)
open import rrs-lib.Declared using (IllegalInstruction; AlignmentFault)
open import rrs-lib.Machine
open import rrs-lib.Steps
open import rrs-extra.Programs
open import laws.Numbers
open import Data.Nat.Solver using (module +-*-Solver)

-- ---- the words are rows

decodes-I : {row : Row} {f : IType} {w : ℕ} → table row .format· ≡ InI → table row .operands·
  ≡ Free → table row .funct7· ≡ Absent
  → IsInRange (I f) → Meets (table row .funct3·) (f .funct3·) → w
      ≡ encode (table row .opcode·) (I f) → Decodes w row (I f)
decodes-I {row} {f} k o c r m e = record { format· = sym k ; in-range· = r ; functs· = m
  ; operands· = subst (λ o → MeetsOperands o (I f)) (sym o) tt ; encoded· = e }

immediate-fields : ℕ → ℕ → ℕ → ℤ → IType
immediate-fields rd funct3 rs1 imm = record { rd· = rd ; funct3· = funct3 ; rs1· = rs1 ; imm· =
  imm }

in-I : {rd funct3 rs1 : ℕ} {imm : ℤ} → nat-lt rd 32 ≡ true → nat-lt funct3 8 ≡ true → nat-lt rs1 32
  ≡ true
  → int-le (negsuc 2047) imm ≡ true → int-le imm (pos 2047) ≡ true
      → IsInRange (I (immediate-fields rd funct3 rs1 imm))
in-I a b c d e = lt a , lt b , lt c , leℤ d , leℤ e

beq-fields : BType
beq-fields = record { funct3· = 0 ; rs1· = 11 ; rs2· = 0 ; imm· = pos 24 }
add-fields : RType
add-fields = record { rd· = 12 ; funct3· = 0 ; rs1· = 12 ; rs2· = 13 ; funct7· = 0 }
jal-fields : JType
jal-fields = record { rd· = 0 ; imm· = negsuc 19 }

is-0 : Decodes 0x00000613 Addi (I (immediate-fields 12 0 0 (pos 0)))
is-0 = decodes-I refl refl refl (in-I refl refl refl refl refl) refl refl
is-1 : Decodes 0x00058c63 Beq (B beq-fields)
is-1 = record { format· = refl ; in-range· = lt refl , lt refl , lt refl , leℤ refl , leℤ refl
  , refl ; functs· = refl ; operands· = tt ; encoded· = refl }
is-2 : Decodes 0x00052683 Lw (I (immediate-fields 13 2 10 (pos 0)))
is-2 = decodes-I refl refl refl (in-I refl refl refl refl refl) refl refl
is-3 : Decodes 0x00d60633 Add (R add-fields)
is-3 = record { format· = refl ; in-range· = lt refl , lt refl , lt refl , lt refl , lt refl
  ; functs· = refl , refl ; operands· = tt ; encoded· = refl }
is-4 : Decodes 0x00450513 Addi (I (immediate-fields 10 0 10 (pos 4)))
is-4 = decodes-I refl refl refl (in-I refl refl refl refl refl) refl refl
is-5 : Decodes 0xfff58593 Addi (I (immediate-fields 11 0 11 (negsuc 0)))
is-5 = decodes-I refl refl refl (in-I refl refl refl refl refl) refl refl
is-6 : Decodes 0xfedff06f Jal (J jal-fields)
is-6 = record { format· = refl ; in-range· = lt refl , leℤ refl , leℤ refl , refl ; functs· = tt
  ; operands· = tt ; encoded· = refl }

-- ---- what the arithmetic of the loop is

M>0 : 0 N.< 2 ^ 32
M>0 = test< 0 (2 ^ 32) refl

-- a remainder may be taken of a part of a sum first
modulo-part : (u s m : ℕ) → 0 N.< m → (u % m + s) % m ≡ (u + s) % m
modulo-part u s (suc k) _ = trans (N.%-distribˡ-+ s (u % suc k) (suc k))
  (trans (cong (λ z → (s % suc k N.+ z) % suc k) (N.m%n%n≡m%n u k))
      (sym (N.%-distribˡ-+ s u (suc k))))
sum-modulo : (c x s m : ℕ) → 0 N.< m → ((c + x % m) % m + s) % m ≡ (c + (x + s)) % m
sum-modulo c x s m h = trans (modulo-part (c + x % m) s m h)
  (trans (cong (_% m) (solve 3 (λ c y s → s :+ (y :+ c) := (s :+ c) :+ y) refl c (x % m) s))
  (trans (modulo-part x (c + s) m h) (cong (_% m)
      (solve 3 (λ c x s → (s :+ c) :+ x := (s :+ x) :+ c) refl c x s))))
  where open +-*-Solver

-- adding the greatest word subtracts 1
less-one : (k b m : ℕ) → suc b ≡ m → k N.< m → (suc k + b) % m ≡ k
less-one k b _ refl h = trans (cong (_% suc b) (trans (N.+-suc b k) (N.+-comm (suc b) k)))
  (trans (N.[m+n]%n≡m%n k b) (small k (suc b) h))

word-add : (a b : ℕ) → word (add a b) ≡ (a + b) % 2 ^ 32
word-add a b = refl
less-word : (r k b : ℕ) → suc b ≡ 2 ^ 32 → r ≡ suc k → k N.< 2 ^ 32 → word (add r b) ≡ k
less-word _ k b e refl h = trans (word-add (suc k) b) (less-one k b (2 ^ 32) e h)
minus-one : (r k : ℕ) → r ≡ suc k → k N.< 2 ^ 32 → word (add r (word (negsuc 0))) ≡ k
minus-one r k = less-word r k (word (negsuc 0)) refl
plus-zero : (a : ℕ) → a N.< 2 ^ 32 → word (add a (word (pos 0))) ≡ a
plus-zero a h = small a (2 ^ 32) h

-- ---- steps of a machine whose registers x1 to x9 and x14 to x31, and memory, stay as they are

module Loop (x1 x2 x3 x4 x5 x6 x7 x8 x9 : ℕ) (rest : List ℕ) (bytes : ByteMap) (writable : ℕ → Bool)
    (program : HoldsWords bytes 0 sum-loop-program) (ends : EndsAtLastAddress bytes writable) where

  at : ℕ → ℕ → ℕ → ℕ → ℕ → Option ℕ → State
  at x10 x11 x12 x13 pc last = record
    { registers· = x1 ∷ x2 ∷ x3 ∷ x4 ∷ x5 ∷ x6 ∷ x7 ∷ x8 ∷ x9 ∷ x10 ∷ x11 ∷ x12 ∷ x13 ∷ rest
    ; pc· = pc ; last· = last ; bytes· = bytes ; writable· = writable }

  -- a step that writes a register
  writes : {s : State} (p w i : ℕ) (z : ℤ) (v : ℕ) {row : Row} {f : Fields}
    → s .pc· % 4 ≡ 0 → little-endian (s .bytes·) (s .pc·) 4 ≡ Some w → Decodes w row f
    → execute row f (cleared s) ≡ Some (outcome (put (cleared s) (suc i) z) (Ok false)) → word z
        ≡ v → word (pos (s .pc· + 4)) ≡ p
    → Step s (record s { registers· = slice-set (s .registers·) i v ; pc· = p ; last· = Some
        (suc i) }) (Ok tt)
  writes p w i z v {row} {f} e l d x refl refl = Legal w row f _ _ e l d x refl refl

  -- addi and lw, with their sum left as it is written
  addi : (s : State) (rd rs1 : ℕ) (imm : ℤ) → execute Addi (I (immediate-fields rd 0 rs1 imm)) s
    ≡ Some (outcome (put s rd (add (reg s rs1) (word imm))) (Ok false))
  addi s rd rs1 imm = refl
  lw : (s : State) (rd rs1 : ℕ) (imm : ℤ) (address x : ℕ) → plus-immediate (reg s rs1) imm
      ≡ address → address % 4 ≡ 0
    → little-endian (s .bytes·) address 4 ≡ Some x
    → execute Lw (I (immediate-fields rd 2 rs1 imm)) s
        ≡ Some (outcome (put s rd (pos x)) (Ok false))
  lw s rd rs1 imm _ x refl aligned e = trans
    (cong (λ r → Some (if r == 0 then read-outcome pos rd a s
        (little-endian (s .bytes·) a 4) else fault-outcome (AlignmentFault a) s)) aligned)
    (cong (λ o → Some (read-outcome pos rd a s o)) e)
    where a = plus-immediate (reg s rs1) imm

  -- ---- reading words

  word-of-program : (i w : ℕ) → nat-lt i 7 ≡ true → slice-index sum-loop-program i ≡ w
      → little-endian bytes (0 + 4 * i) 4 ≡ Some w
  word-of-program i w h e = trans (program .each· i (lt h)) (cong Some e)

  reads : (a n : ℕ) → IsMapped bytes a n → little-endian bytes a n
      ≡ Some (or-zero (little-endian bytes a n))
  reads a zero mapped = refl
  reads a (suc n) mapped with little-endian bytes a n | reads a n
      (λ i h → mapped i (lt (<test (N.≤-step (below h)))))
    | bytes (a + n) | mapped n (lt (<test (N.n<1+n n)))
  ... | Some x | _ | Some y | _ = refl

  none : {o : Option ℕ} → o ≡ None → ¬ IsSome o
  none refl ()
  mapped-below : (a : ℕ) → IsSome (bytes a) → a N.< 2 ^ 32
  mapped-below a some = by (nat-lt a (2 ^ 32)) refl where
    by : (b : Bool) → nat-lt a (2 ^ 32) ≡ b → a N.< 2 ^ 32
    by true e = test< a (2 ^ 32) e
    by false e = ⊥-elim (none (proj₁ (ends a (le (<test (N.s≤s (test≮ a (2 ^ 32) e)))))) some)

  -- ---- the loop

  -- the number of its steps for k words
  steps : ℕ → ℕ
  steps zero = 1
  steps (suc k) = 6 N.+ steps k

  -- the rest of the words is mapped, after the first
  later : (a k : ℕ) → IsMapped bytes a (4 * suc k) → IsMapped bytes (a + 4) (4 * k)
  later a k mapped i h = subst (λ x → IsSome (bytes x)) (N.+-assoc i 4 a)
    (mapped (i N.+ 4) (lt (<test (N.<-transˡ (N.+-monoˡ-< 4 (below h))
        (N.≤-reflexive (trans (N.+-comm (4 * k) 4) (sym (N.*-suc 4 k))))))))
  first-word : (a k : ℕ) → IsMapped bytes a (4 * suc k) → IsMapped bytes a 4
  first-word a k mapped i h = mapped i (lt (<test
      (N.<-transˡ (below h) (N.≤-trans (N.m≤m+n 4 (4 * k)) (N.≤-reflexive (sym (N.*-suc 4 k)))))))

  -- x10 has the address while words are left
  next-address : (a k : ℕ) → IsMapped bytes (a + 4) (4 * k) → 0 N.< k → (a + 4) % 2 ^ 32 ≡ a + 4
  next-address a (suc k) mapped _ = small (a + 4) (2 ^ 32)
      (mapped-below (a + 4) (mapped 0 (lt refl)))

  -- a round, with the values that it writes, before a run
  round : (a k c x13 : ℕ) (last : Option ℕ) (x y10 y12 y13 : ℕ) → a % 4 ≡ 0 → a N.< 2 ^ 32
      → k N.< 2 ^ 32
    → little-endian bytes a 4 ≡ Some x → word (pos x) ≡ y13 → word (add c y13) ≡ y12
        → word (add a (word (pos 4))) ≡ y10
    → {n : ℕ} {t : State} → RunsOk n (at y10 k y12 y13 4 None) t
        → RunsOk (6 N.+ n) (at a (suc k) c x13 4 last) t
  round a k c x13 last x y10 y12 y13 aligned a-word k-word word-there e13 e12 e10 run =
      _ , Legal 0x00058c63 Beq (B beq-fields) _ _ refl
          (word-of-program 1 _ refl refl) is-1 refl refl refl
    , _ , writes {at a (suc k) c x13 8 None} 12 0x00052683 12 (pos x) y13 refl
        (word-of-program 2 _ refl refl) is-2
            (lw (at a (suc k) c x13 8 None) 13 10 (pos 0) a x
                (plus-zero a a-word) aligned word-there) e13 refl
    , _ , writes {at a (suc k) c y13 12 (Some 13)} 16 0x00d60633 11 (add c y13) y12 refl
        (word-of-program 3 _ refl refl) is-3 refl e12 refl
    , _ , writes {s4} 20 0x00450513 9 (add (reg (cleared s4) 10) (word (pos 4))) y10 refl
            (word-of-program 4 _ refl refl) is-4 (addi (cleared s4) 10 10 (pos 4)) e10 refl
    , _ , writes {s5} 24 0xfff58593 10 (add (reg (cleared s5) 11) (word (negsuc 0))) k refl
            (word-of-program 5 _ refl refl) is-5 (addi (cleared s5) 11 11 (negsuc 0))
                (minus-one (reg (cleared s5) 11) k refl k-word) refl
    , _ , Legal 0xfedff06f Jal (J jal-fields) _ _ refl
        (word-of-program 6 _ refl refl) is-6 refl refl refl
    , run
    where
    s4 = at a (suc k) y12 y13 16 (Some 12)
    s5 = at y10 (suc k) y12 y13 20 (Some 10)

  rounds : (k a x10 c x13 : ℕ) (last : Option ℕ) → (0 N.< k → x10 ≡ a) → a % 4 ≡ 0 → k N.< 2 ^ 32
      → c N.< 2 ^ 32
    → IsMapped bytes a (4 * k)
    → Σ ℕ λ x10' → Σ ℕ λ x13' → RunsOk (steps k) (at x10 k c x13 4 last)
        (at x10' 0 ((c + sum-of-words bytes a k) % 2 ^ 32) x13' 28 None)
  rounds zero a x10 c x13 last _ _ _ c-word _ = x10 , x13
    , subst (λ y → RunsOk 1 (at x10 0 c x13 4 last) (at x10 0 y x13 28 None))
        (sym (small c (2 ^ 32) c-word))
      (_ , Legal 0x00058c63 Beq (B beq-fields) _ _ refl
          (word-of-program 1 _ refl refl) is-1 refl refl refl , refl)
  rounds (suc k) a x10 c x13 last now aligned k-word c-word mapped with now (N.s≤s N.z≤n)
  ... | refl with rounds k (a + 4) ((a + 4) % 2 ^ 32) ((c + x % 2 ^ 32) % 2 ^ 32) (x % 2 ^ 32) None
      (next-address a k (later a k mapped)) aligned (N.<-trans (N.n<1+n k) k-word)
          (remainder-below (c + x % 2 ^ 32) (2 ^ 32) M>0) (later a k mapped)
    where x = word-at bytes a
  ... | x10' , x13' , run = x10' , x13' , round a k c x13 last x _ _ _ aligned
      (mapped-below a (mapped 0 (lt refl))) (N.<-trans (N.n<1+n k) k-word)
      (reads a 4 (first-word a k mapped)) refl (word-add c (x % 2 ^ 32)) (word-add a (word (pos 4)))
      (subst (λ y → RunsOk (steps k) (at ((a + 4) % 2 ^ 32) k ((c + x % 2 ^ 32) % 2 ^ 32)
          (x % 2 ^ 32) 4 None) (at x10' 0 y x13' 28 None))
          (sum-modulo c x (sum-of-words bytes (a + 4) k) (2 ^ 32) M>0) run)
    where x = word-at bytes a

-- ---- the law

-- The premises of the program are those of its definition. Beside them stands what holds of every
-- hart with a memory: 31 registers, which are words, and a memory that ends at 2 ^ 32.
record IsMachine (s : State) : Set where
  field
    registers-31 : length (s .registers·) ≡ 31
    words : (r : ℕ) → reg s r < 2 ^ 32
    ends : EndsAtLastAddress (s .bytes·) (s .writable·)
open IsMachine public

-- The run ends at 0x1c after 6n + 2 steps with the exception of the word there.
record Sums (s : State) : Set where
  field
    after : State
    run : RunUntil (6 * reg s 11 + 3) s (6 * reg s 11 + 2)
        (Some (IllegalInstruction 0x1c (word-at (s .bytes·) 0x1c))) after
    sum : reg after 12 ≡ sum-of-words (s .bytes·) (reg s 10) (reg s 11) % 2 ^ 32
    same-bytes : after .bytes· ≡ s .bytes·

from-zero : (xs : List ℕ) (last : Option ℕ) (bytes : ByteMap) (writable : ℕ → Bool) → length xs ≡ 31
  → let s = record { registers· = xs ; pc· = 0 ; last· = last ; bytes· = bytes
                   ; writable· = writable } in
    IsMachine s → SumLoopStarts s → Sums s
from-zero (x1 ∷ x2 ∷ x3 ∷ x4 ∷ x5 ∷ x6 ∷ x7 ∷ x8 ∷ x9 ∷ x10 ∷ x11 ∷ x12 ∷ x13 ∷ rest) last bytes
  writable _ m starts = by
    (rounds x11 x10 x10 0 x13 (Some 12) (λ _ → refl) (starts .aligned·) (below (m .words 11)) M>0
        (starts .mapped·))
  where
  open Loop x1 x2 x3 x4 x5 x6 x7 x8 x9 rest bytes writable (starts .program·) (m .ends)
  total = sum-of-words bytes x10 x11
  steps-are : (k : ℕ) → suc (steps k) ≡ 6 * k + 2
  steps-are zero = refl
  steps-are (suc k) = trans (cong (6 N.+_) (steps-are k)) (cong (2 N.+_) (sym (N.*-suc 6 k)))
  by : (Σ ℕ λ x10' → Σ ℕ λ x13' → RunsOk (steps x11) (at x10 x11 0 x13 4 (Some 12))
      (at x10' 0 ((0 + total) % 2 ^ 32) x13' 28 None)) → Sums _
  by (x10' , x13' , run) = record
    { after = at x10' 0 ((0 + total) % 2 ^ 32) x13' 28 None
    ; run = lt (<test (N.n<1+n (6 * x11 + 2))) , _
      , subst (λ n → RunsOk n (at x10 x11 x12 x13 0 last)
          (at x10' 0 ((0 + total) % 2 ^ 32) x13' 28 None)) (steps-are x11)
          (_ , writes {at x10 x11 x12 x13 0 last} 4 0x00000613 11 (add 0 (word (pos 0))) 0 refl
              (word-of-program 0 _ refl refl) is-0 refl refl refl , run)
      , Illegal _ refl (reads 28 4 (starts .behind· .mapped·)) (starts .behind· .outside·) refl refl
    ; sum = cong (_% 2 ^ 32) (N.+-identityʳ total)
    ; same-bytes = refl }

sum-loop : (s : State) → IsMachine s → SumLoopStarts s → Sums s
sum-loop record { registers· = xs ; pc· = _ ; last· = last ; bytes· = bytes ; writable· =
  writable } m starts with starts .pc·
... | refl = from-zero xs last bytes writable (m .registers-31) m starts
