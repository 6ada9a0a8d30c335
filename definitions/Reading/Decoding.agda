{-# OPTIONS --safe --without-K #-}
-- The decoding of words, as the definitions have it. `decode` is total: it returns a row and its
-- fields with the proof that the word is these, or the proof that the word is an illegal
-- instruction.
module Reading.Decoding where

open import Prelude
open import Data.Empty using (⊥-elim)
open import Data.Sum.Base using (inj₁; inj₂)
open import Relation.Binary.PropositionalEquality using (sym; trans; cong; cong₂; subst)
open import Relation.Nullary using (Dec; yes; no)
open import rrs-instruction.Declared
open import rrs-instruction.Encodings
open import rrs-instruction.Table
open import laws.Fields using (fields-of; read-back)

-- ---- tests of what a row asks

test : (b : Bool) → Dec (b ≡ true)
test true = yes refl
test false = no λ ()

same→≡ : (m n : ℕ) → nat-eq m n ≡ true → m ≡ n
same→≡ zero zero e = refl
same→≡ (suc m) (suc n) e = cong suc (same→≡ m n e)

≡→same : (m : ℕ) → nat-eq m m ≡ true
≡→same zero = refl
≡→same (suc m) = ≡→same m

infix 4 _≡?_ _≡ℤ?_
infix 50 _<?_ _≤ℤ?_
infixr 2 _×?_

_≡?_ : (m n : ℕ) → Dec (m ≡ n)
m ≡? n with test (nat-eq m n)
... | yes e = yes (same→≡ m n e)
... | no ne = no λ { refl → ne (≡→same m) }

_<?_ : (m n : ℕ) → Dec (m < n)
m <? n with test (nat-lt m n)
... | yes e = yes (lt e)
... | no ne = no λ { (lt e) → ne e }

_≤ℤ?_ : (x y : ℤ) → Dec (x ≤ℤ y)
x ≤ℤ? y with test (int-le x y)
... | yes e = yes (leℤ e)
... | no ne = no λ { (leℤ e) → ne e }

_≡ℤ?_ : (x y : ℤ) → Dec (x ≡ y)
pos m ≡ℤ? pos n with m ≡? n
... | yes e = yes (cong pos e)
... | no ne = no λ { refl → ne refl }
pos m ≡ℤ? negsuc n = no λ ()
negsuc m ≡ℤ? pos n = no λ ()
negsuc m ≡ℤ? negsuc n with m ≡? n
... | yes e = yes (cong negsuc e)
... | no ne = no λ { refl → ne refl }

_×?_ : {A B : Set} → Dec A → Dec B → Dec (A × B)
yes a ×? yes b = yes (a , b)
no na ×? _ = no λ p → na (proj₁ p)
yes _ ×? no nb = no λ p → nb (proj₂ p)

in-range? : (f : Fields) → Dec (IsInRange f)
in-range? (R f) = (_ <? _) ×? (_ <? _) ×? (_ <? _) ×? (_ <? _) ×? (_ <? _)
in-range? (I f) = (_ <? _) ×? (_ <? _) ×? (_ <? _) ×? (_ ≤ℤ? _) ×? (_ ≤ℤ? _)
in-range? (IShamt f) = (_ <? _) ×? (_ <? _) ×? (_ <? _) ×? (_ <? _) ×? (_ <? _)
in-range? (S f) = (_ <? _) ×? (_ <? _) ×? (_ <? _) ×? (_ ≤ℤ? _) ×? (_ ≤ℤ? _)
in-range? (B f) = (_ <? _) ×? (_ <? _) ×? (_ <? _) ×? (_ ≤ℤ? _) ×? (_ ≤ℤ? _) ×? (_ ≡? _)
in-range? (U f) = (_ <? _) ×? (_ ≤ℤ? _) ×? (_ ≤ℤ? _) ×? (_ ≡? _)
in-range? (J f) = (_ <? _) ×? (_ ≤ℤ? _) ×? (_ ≤ℤ? _) ×? (_ ≡? _)

meets? : (c : Constraint) (x : ℕ) → Dec (Meets c x)
meets? (Exactly n) x = x ≡? n
meets? Absent x = yes tt

meets-functs? : (c d : Constraint) (f : Fields) → Dec (MeetsFuncts c d f)
meets-functs? c d (R f) = meets? c _ ×? meets? d _
meets-functs? c d (I f) = meets? c _
meets-functs? c d (IShamt f) = meets? c _ ×? meets? d _
meets-functs? c d (S f) = meets? c _
meets-functs? c d (B f) = meets? c _
meets-functs? c d (U f) = yes tt
meets-functs? c d (J f) = yes tt

meets-operands? : (o : Operands) (f : Fields) → Dec (MeetsOperands o f)
meets-operands? (Fixed imm) (I f) = (_ ≡? _) ×? (_ ≡? _) ×? (_ ≡ℤ? _)
meets-operands? (Fixed imm) (R f) = yes tt
meets-operands? (Fixed imm) (IShamt f) = yes tt
meets-operands? (Fixed imm) (S f) = yes tt
meets-operands? (Fixed imm) (B f) = yes tt
meets-operands? (Fixed imm) (U f) = yes tt
meets-operands? (Fixed imm) (J f) = yes tt
meets-operands? Free f = yes tt

-- ---- all rows

-- a row is in the list of all rows, at the place of its number
numbered : (row : Row) → slice-get all-rows (table row .number· - 1) ≡ Some row
numbered = λ
  { Row.Add → refl ; Row.Sub → refl ; Row.Sll → refl ; Row.Slt → refl ; Row.Sltu → refl
  ; Row.Xor → refl ; Row.Srl → refl ; Row.Sra → refl ; Row.Or → refl ; Row.And → refl
  ; Row.Addi → refl ; Row.Slli → refl ; Row.Slti → refl ; Row.Sltiu → refl ; Row.Xori → refl
  ; Row.Srli → refl ; Row.Srai → refl ; Row.Ori → refl ; Row.Andi → refl ; Row.Lui → refl
  ; Row.Auipc → refl ; Row.Beq → refl ; Row.Bne → refl ; Row.Blt → refl ; Row.Bltu → refl
  ; Row.Bge → refl ; Row.Bgeu → refl ; Row.Lb → refl ; Row.Lbu → refl ; Row.Lh → refl
  ; Row.Lhu → refl ; Row.Lw → refl ; Row.Sb → refl ; Row.Sh → refl ; Row.Sw → refl
  ; Row.Jal → refl ; Row.Jalr → refl ; Row.Mul → refl ; Row.Mulh → refl ; Row.Mulhu → refl
  ; Row.Mulhsu → refl ; Row.Div → refl ; Row.Divu → refl ; Row.Rem → refl ; Row.Remu → refl
  ; Row.Fence → refl ; Row.Ecall → refl ; Row.Ebreak → refl }

-- P holds of each element
data Each {A : Set} (P : A → Set) : List A → Set where
  [] : Each P []
  _∷_ : {x : A} {xs : List A} → P x → Each P xs → Each P (x ∷ xs)

-- so of the one at any place
each-at : {A : Set} {P : A → Set} {xs : List A} (i : ℕ) {x : A}
  → Each P xs → slice-get xs i ≡ Some x → P x
each-at zero (p ∷ ps) refl = p
each-at (suc i) (p ∷ ps) e = each-at i ps e

-- so of one that has a place
each-there : {A : Set} {P : A → Set} {xs : List A} {x : A}
  → Each P xs → (Σ ℕ λ i → slice-get xs i ≡ Some x) → P x
each-there ps (i , e) = each-at i ps e

-- each element passes a test
all-pass : {A : Set} → (A → Bool) → List A → Bool
all-pass passes [] = true
all-pass passes (x ∷ xs) = passes x && all-pass passes xs

each-passes : {A : Set} (passes : A → Bool) (xs : List A) → all-pass passes xs ≡ true
  → Each (λ x → passes x ≡ true) xs
each-passes passes [] e = []
each-passes passes (x ∷ xs) e with passes x in p
... | true = p ∷ each-passes passes xs e

-- each opcode has seven bits
opcode-below : (row : Row) → table row .opcode· < 2 ^ 7
opcode-below row =
  lt (each-at (table row .number· - 1) (each-passes below-128 all-rows refl) (numbered row))
  where
  below-128 : Row → Bool
  below-128 row = nat-lt (table row .opcode·) (2 ^ 7)

-- ---- words

-- the fields that a word has, if it is this row
fields-in : Row → ℕ → Fields
fields-in row w = fields-of (table row .format·) w

format-at : (k : Format) (w : ℕ) → format-of (fields-of k w) ≡ k
format-at InR w = refl
format-at InI w = refl
format-at InIShamt w = refl
format-at InS w = refl
format-at InB w = refl
format-at InU w = refl
format-at InJ w = refl

-- a word that is a row has no other fields than these
only-fields : {w : ℕ} {row : Row} {f : Fields} → Decodes w row f → f ≡ fields-in row w
only-fields {w} {row} {f} d =
  trans (sym (read-back (table row .opcode·) f (opcode-below row) (d .in-range·)))
  (cong₂ fields-of (d .format·) (sym (d .encoded·)))

-- whether a word is a row
is-row? : (w : ℕ) (row : Row) → Dec (Decodes w row (fields-in row w))
is-row? w row with meets-functs? (table row .funct3·) (table row .funct7·) (fields-in row w)
... | no n = no λ d → n (d .functs·)
... | yes m with w ≡? encode (table row .opcode·) (fields-in row w)
...   | no n = no λ d → n (d .encoded·)
...   | yes e with meets-operands? (table row .operands·) (fields-in row w)
...     | no n = no λ d → n (d .operands·)
...     | yes o with in-range? (fields-in row w)
...       | no n = no λ d → n (d .in-range·)
...       | yes r = yes (record { format· = format-at (table row .format·) w ; in-range· = r
                                ; functs· = m ; operands· = o ; encoded· = e })

-- a word is a row with its fields
Decoded : ℕ → Set
Decoded w = Σ Row λ row → Σ Fields λ f → Decodes w row f

-- the first row that a word is, or that it is none of them
find : (w : ℕ) (rows : List Row)
  → Decoded w ⊎ Each (λ row → ¬ Decodes w row (fields-in row w)) rows
find w [] = inj₂ []
find w (row ∷ rows) with is-row? w row
... | yes d = inj₁ (row , _ , d)
... | no n with find w rows
...   | inj₁ d = inj₁ d
...   | inj₂ ns = inj₂ (n ∷ ns)

decode : (w : ℕ) → Decoded w ⊎ IsIllegal w
decode w with find w all-rows
... | inj₁ d = inj₁ d
... | inj₂ ns = inj₂ λ row f d → each-at (table row .number· - 1) ns (numbered row)
                  (subst (Decodes w row) (only-fields d) d)
