{-# OPTIONS --safe --without-K #-}
-- A word is at most one row with one tuple of fields. Each row says what some parts of its words
-- are: the opcode, and funct3, funct7 and the immediate where it gives them. These are its marks.
-- Two rows have marks that disagree, which Agda finds out by computing all 48 * 48 pairs.
module laws.OneRow where
open import Prelude
open import Data.Empty using (⊥-elim)
open import Data.Sum.Base using (inj₁; inj₂)
open import Relation.Binary.PropositionalEquality using (sym; trans; cong; subst)
open import rrs-instruction.Declared
open import rrs-instruction.Words using (floor-mod)
open import rrs-instruction.Encodings
open import rrs-instruction.Table
open import laws.Numbers
open import laws.Fields
open import Reading.Decoding

-- ---- the marks of a row

-- a place, by its lowest bit and its width, and the value that it has
Mark : Set
Mark = ℕ × ℕ × ℕ

exactly : ℕ → ℕ → Constraint → List Mark → List Mark
exactly low width (Exactly n) marks = (low , width , n) ∷ marks
exactly low width Absent marks = marks

fixed-immediate : Operands → List Mark
fixed-immediate Free = []
fixed-immediate (Fixed imm) = (20 , 12 , floor-mod imm (2 ^ 12)) ∷ []

marks-in : Format → ℕ → Constraint → Constraint → Operands → List Mark
marks-in InR op c3 c7 o = (0 , 7 , op) ∷ exactly 12 3 c3 (exactly 25 7 c7 [])
marks-in InI op c3 c7 o = (0 , 7 , op) ∷ exactly 12 3 c3 (fixed-immediate o)
marks-in InIShamt op c3 c7 o = (0 , 7 , op) ∷ exactly 12 3 c3 (exactly 25 7 c7 [])
marks-in InS op c3 c7 o = (0 , 7 , op) ∷ exactly 12 3 c3 []
marks-in InB op c3 c7 o = (0 , 7 , op) ∷ exactly 12 3 c3 []
marks-in InU op c3 c7 o = (0 , 7 , op) ∷ []
marks-in InJ op c3 c7 o = (0 , 7 , op) ∷ []

marks : Row → List Mark
marks row = marks-in (table row .format·) (table row .opcode·) (table row .funct3·)
  (table row .funct7·) (table row .operands·)

-- ---- a word of a row shows its marks

Shows : ℕ → Mark → Set
Shows w (low , width , v) = part w low width ≡ v

also : {w x : ℕ} {marks : List Mark} (low width : ℕ) (c : Constraint)
  → part w low width ≡ x → Meets c x → Each (Shows w) marks
      → Each (Shows w) (exactly low width c marks)
also low width (Exactly n) e m rest = trans e m ∷ rest
also low width Absent e m rest = rest

shown-in : (op : ℕ) (c3 c7 : Constraint) (o : Operands) (f : Fields) → op < 2 ^ 7 → IsInRange f
  → MeetsFuncts c3 c7 f → MeetsOperands o f → Each (Shows (encode op f))
      (marks-in (format-of f) op c3 c7 o)
shown-in op c3 c7 o (R f) h r (m3 , m7) _ = at (R f) h r 0 7
  (there (there (there (there (there first)))))
  ∷ also 12 3 c3 (at (R f) h r 12 3 p3) m3 (also 25 7 c7 (at (R f) h r 25 7 p0) m7 [])
shown-in op c3 c7 Free (I f) h r m3 _ = at (I f) h r 0 7 (there (there (there (there first))))
  ∷ also 12 3 c3 (at (I f) h r 12 3 p2) m3 []
shown-in op c3 c7 (Fixed imm) (I f) h r m3 (_ , _ , is) = at (I f) h r 0 7
  (there (there (there (there first))))
  ∷ also 12 3 c3 (at (I f) h r 12 3 p2) m3 (trans (at (I f) h r 20 12 p0)
      (cong (λ z → floor-mod z (2 ^ 12)) is) ∷ [])
shown-in op c3 c7 o (IShamt f) h r (m3 , m7) _ = at (IShamt f) h r 0 7
  (there (there (there (there (there first)))))
  ∷ also 12 3 c3 (at (IShamt f) h r 12 3 p3) m3 (also 25 7 c7 (at (IShamt f) h r 25 7 p0) m7 [])
shown-in op c3 c7 o (S f) h r m3 _ = at (S f) h r 0 7 (there (there (there (there (there first)))))
  ∷ also 12 3 c3 (at (S f) h r 12 3 p3) m3 []
shown-in op c3 c7 o (B f) h r m3 _ = at (B f) h r 0 7
  (there (there (there (there (there (there (there first)))))))
  ∷ also 12 3 c3 (at (B f) h r 12 3 p4) m3 []
shown-in op c3 c7 o (U f) h r _ _ = at (U f) h r 0 7 (there (there first)) ∷ []
shown-in op c3 c7 o (J f) h r _ _ = at (J f) h r 0 7
  (there (there (there (there (there first))))) ∷ []

shows : {w : ℕ} (row : Row) {f : Fields} → Decodes w row f → Each (Shows w) (marks row)
shows {w} row {f} d = subst (λ k → Each (Shows w) (marks-in k op c3 c7 o)) (d .format·)
  (subst (λ w → Each (Shows w) (marks-in (format-of f) op c3 c7 o)) (sym (d .encoded·))
    (shown-in op c3 c7 o f (opcode-below row) (d .in-range·) (d .functs·) (d .operands·)))
  where
  op = table row .opcode·
  c3 = table row .funct3·
  c7 = table row .funct7·
  o = table row .operands·

-- ---- marks that disagree

disagree : Mark → Mark → Bool
disagree (low , width , v) (low' , width' , v') = nat-eq low low' &&
  (nat-eq width width' && not (nat-eq v v'))
some : {A : Set} → (A → Bool) → List A → Bool
some test [] = false
some test (x ∷ xs) = test x || some test xs

both : (b c : Bool) → b && c ≡ true → (b ≡ true) × (c ≡ true)
both true true _ = refl , refl
either : (b c : Bool) → b || c ≡ true → (b ≡ true) ⊎ (c ≡ true)
either true _ _ = inj₁ refl
either false _ e = inj₂ e
one-of : {A : Set} {P : A → Set} (test : A → Bool) {xs : List A} → some test xs ≡ true → Each P xs
  → Σ A λ x → P x × (test x ≡ true)
one-of test {x ∷ xs} e (p ∷ ps) with either (test x) (some test xs) e
... | inj₁ yes = x , p , yes
... | inj₂ later = one-of test later ps

not-both : {w : ℕ} (m n : Mark) → disagree m n ≡ true → Shows w m → ¬ Shows w n
not-both {w} (low , width , v) (low' , width' , v') e s s' with both (nat-eq low low') _ e
... | l , e' with both (nat-eq width width') _ e'
... | h , n with same→≡ low low' l | same→≡ width width' h
... | refl | refl = absurd (subst (λ x → not (nat-eq v x) ≡ true) (trans (sym s') s) n) where
  absurd : not (nat-eq v v) ≡ true → ⊥
  absurd x with nat-eq v v | ≡→same v
  absurd () | true | _

told-apart : Row → Row → Bool
told-apart row row' = nat-eq (table row .number·) (table row' .number·) || some
  (λ m → some (disagree m) (marks row')) (marks row)
all-told-apart : (row row' : Row) → told-apart row row' ≡ true
all-told-apart row row' = each-at (table row' .number· - 1) (each-passes (told-apart row) all-rows
  (each-at (table row .number· - 1) (each-passes
      (λ row → all-pass (told-apart row) all-rows) all-rows refl) (numbered row))) (numbered row')

-- ---- the law

one-number : (row row' : Row) → table row .number· ≡ table row' .number· → row ≡ row'
one-number row row' e = is-same (trans (sym (numbered row))
  (trans (cong (λ n → slice-get all-rows (n - 1)) e) (numbered row'))) where
  is-same : Some row ≡ Some row' → row ≡ row'
  is-same refl = refl

the-row : {w : ℕ} {row row' : Row} {f f' : Fields} → Decodes w row f → Decodes w row' f' → row
  ≡ row'
the-row {w} {row} {row'} d d' with either (nat-eq (table row .number·) (table row' .number·)) _
  (all-told-apart row row')
... | inj₁ e = one-number row row' (same→≡ (table row .number·) (table row' .number·) e)
... | inj₂ e with one-of (λ m → some (disagree m) (marks row')) e (shows row d)
... | m , s , e' with one-of (disagree m) e' (shows row' d')
... | n , s' , e'' = ⊥-elim (not-both m n e'' s s')

is-one-row-at-most : (w : ℕ) → IsOneRowAtMost w
is-one-row-at-most w row row' f f' d d' with the-row d d'
... | refl = refl , trans (only-fields d) (sym (only-fields d'))
