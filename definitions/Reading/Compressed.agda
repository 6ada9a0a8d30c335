{-# OPTIONS --safe --without-K #-}
-- The decoding of half-words, as the definitions have it: `decode-short` is total. For each form it
-- tries the operands whose bits stand in the half-word. Where no form has these, it tries all
-- operands of each form, so that it knows where there is none.
module Reading.Compressed where

open import Prelude
open import Data.Sum.Base using (inj₁; inj₂)
open import Relation.Binary.PropositionalEquality using (sym; trans; cong)
open import Relation.Nullary using (Dec; yes; no)
open import rrs-instruction.Encodings using (Fields)
open import rrs-instruction.Table using (Row; table; format·; format-of)
open import machine-words.Declared using
  ( ShortForm; Addi4spn; Lw; Sw; Addi; Jal; Li; Addi16sp; Lui; Srli; Srai; Andi; Sub; Xor; Or; And
  ; J; Beqz; Bnez; Slli; Lwsp; Jr; Mv; Ebreak; Jalr; Add; Swsp
  ; ShortOperands; first·; second·; imm· )
open import machine-words.Forms using
  ( Register; No; Stack; Five; Three; IsRegister; Piece; low·; high·; width·; place·; pieces·
  ; Excluded; Nothing; FirstZero; SecondZero; ImmediateZero; FirstStackOrImmediateZero; IsAllowed
  ; first·; second·; imm·; bits·; excluded·; row·; register-bits; immediate-bits; form-table
  ; IsShort; expanded-fields )
open import hart.Halves using
  (ShortStandsFor; form·; operands·; is·; row-is·; fields-are·)
open import Reading.Decoding

-- ---- a search below a bound

last-or-below : (n k : ℕ) → nat-lt n (suc k) ≡ true → (nat-lt n k ≡ true) ⊎ (n ≡ k)
last-or-below zero zero e = inj₂ refl
last-or-below zero (suc k) e = inj₁ refl
last-or-below (suc n) zero ()
last-or-below (suc n) (suc k) e with last-or-below n k e
... | inj₁ l = inj₁ l
... | inj₂ refl = inj₂ refl

below? : {P : ℕ → Set} → ((n : ℕ) → Dec (P n)) → (k : ℕ)
  → Σ ℕ P ⊎ ((n : ℕ) → nat-lt n k ≡ true → ¬ P n)
below? p? zero = inj₂ λ n ()
below? p? (suc k) with p? k
... | yes p = inj₁ (k , p)
... | no np with below? p? k
...   | inj₁ found = inj₁ found
...   | inj₂ none = inj₂ λ n l → above n (last-or-below n k l)
  where
  above : (n : ℕ) → (nat-lt n k ≡ true) ⊎ (n ≡ k) → ¬ _
  above n (inj₁ l) = none n l
  above n (inj₂ refl) = np

-- whether a number has a property, which no number from a bound on has
exists? : {P : ℕ → Set} (k : ℕ) → ((n : ℕ) → P n → n < k) → ((n : ℕ) → Dec (P n)) → Dec (Σ ℕ P)
exists? k bound p? with below? p? k
... | inj₁ found = yes found
... | inj₂ none = no λ { (n , p) → none n (_<_.holds (bound n p)) p }

-- ---- tests of what a form asks

_≤?_ : (m n : ℕ) → Dec (m ≤ n)
m ≤? n with test (nat-le m n)
... | yes e = yes (le e)
... | no ne = no λ { (le e) → ne e }

not? : {A : Set} → Dec A → Dec (¬ A)
not? (yes a) = no λ na → na a
not? (no na) = yes na

is-register? : (r : Register) (n : ℕ) → Dec (IsRegister r n)
is-register? No n = n ≡? 0
is-register? Stack n = n ≡? 2
is-register? (Five place) n = n <? 32
is-register? (Three place) n = (8 ≤? n) ×? (n <? 16)

-- the registers from here on are none of its
behind-registers : Register → ℕ
behind-registers No = 1
behind-registers Stack = 3
behind-registers (Five place) = 32
behind-registers (Three place) = 16

register-below : (r : Register) (n : ℕ) → IsRegister r n → n < behind-registers r
register-below No n refl = lt refl
register-below Stack n refl = lt refl
register-below (Five place) n l = l
register-below (Three place) n (_ , l) = l

is-allowed? : (e : Excluded) (o : ShortOperands) → Dec (IsAllowed e o)
is-allowed? Nothing o = yes tt
is-allowed? FirstZero o = not? (o .first· ≡? 0)
is-allowed? SecondZero o = not? (o .second· ≡? 0)
is-allowed? ImmediateZero o = not? (o .imm· ≡? 0)
is-allowed? FirstStackOrImmediateZero o = not? (o .first· ≡? 2) ×? not? (o .imm· ≡? 0)

operands : ℕ → ℕ → ℕ → ShortOperands
operands a b x = record { first· = a ; second· = b ; imm· = x }

is-short? : (h : ℕ) (form : ShortForm) (o : ShortOperands) → Dec (IsShort h form o)
is-short? h form o with o .imm· % 2 ^ form-table form .imm· .low· ≡? 0
... | no n = no λ is → n (IsShort.multiple· is)
... | yes m with h ≡? form-table form .bits· + register-bits (form-table form .first·) (o .first·)
    + register-bits (form-table form .second·) (o .second·)
    + immediate-bits (form-table form .imm· .pieces·) (o .imm·)
...   | no n = no λ is → n (IsShort.encoded· is)
...   | yes e with is-register? (form-table form .first·) (o .first·)
        ×? is-register? (form-table form .second·) (o .second·)
        ×? (o .imm· <? 2 ^ form-table form .imm· .high·)
        ×? is-allowed? (form-table form .excluded·) o
...     | no n = no λ is → n (IsShort.first-register· is , IsShort.second-register· is
                              , IsShort.below· is , IsShort.allowed· is)
...     | yes (first , second , below , allowed) = yes (record
  { first-register· = first ; second-register· = second ; below· = below ; multiple· = m
  ; allowed· = allowed ; encoded· = e })

-- ---- the operands of a form that a half-word has

guessed-register : Register → ℕ → ℕ
guessed-register No h = 0
guessed-register Stack h = 2
guessed-register (Five place) h = h / 2 ^ place % 32
guessed-register (Three place) h = 8 + h / 2 ^ place % 8

guessed-immediate : List Piece → ℕ → ℕ
guessed-immediate [] h = 0
guessed-immediate (p ∷ more) h =
  h / 2 ^ p .place· % 2 ^ p .width· * 2 ^ p .low· + guessed-immediate more h

guessed : ShortForm → ℕ → ShortOperands
guessed form h = operands (guessed-register (form-table form .first·) h)
  (guessed-register (form-table form .second·) h)
  (guessed-immediate (form-table form .imm· .pieces·) h)

HasOperands : ℕ → ShortForm → Set
HasOperands h form = Σ ℕ λ a → Σ ℕ λ b → Σ ℕ λ x → IsShort h form (operands a b x)

has-operands? : (h : ℕ) (form : ShortForm) → Dec (HasOperands h form)
has-operands? h form = exists? (behind-registers first) (λ a (_ , _ , is) →
    register-below first a (IsShort.first-register· is))
  λ a → exists? (behind-registers second) (λ b (_ , is) →
    register-below second b (IsShort.second-register· is))
  λ b → exists? (2 ^ form-table form .imm· .high·) (λ x is → IsShort.below· is)
  λ x → is-short? h form (operands a b x)
  where
  first second : Register
  first = form-table form .first·
  second = form-table form .second·

-- ---- all forms

all-forms : List ShortForm
all-forms = Addi4spn ∷ Lw ∷ Sw ∷ Addi ∷ Jal ∷ Li ∷ Addi16sp ∷ Lui ∷ Srli ∷ Srai ∷ Andi ∷ Sub ∷ Xor
  ∷ Or ∷ And ∷ J ∷ Beqz ∷ Bnez ∷ Slli ∷ Lwsp ∷ Jr ∷ Mv ∷ Ebreak ∷ Jalr ∷ Add ∷ Swsp ∷ []

-- each form is among them
among : (form : ShortForm) → Σ ℕ λ place → slice-get all-forms place ≡ Some form
among = λ
  { Addi4spn → 0 , refl ; Lw → 1 , refl ; Sw → 2 , refl ; Addi → 3 , refl ; Jal → 4 , refl
  ; Li → 5 , refl ; Addi16sp → 6 , refl ; Lui → 7 , refl ; Srli → 8 , refl ; Srai → 9 , refl
  ; Andi → 10 , refl ; Sub → 11 , refl ; Xor → 12 , refl ; Or → 13 , refl ; And → 14 , refl
  ; J → 15 , refl ; Beqz → 16 , refl ; Bnez → 17 , refl ; Slli → 18 , refl ; Lwsp → 19 , refl
  ; Jr → 20 , refl ; Mv → 21 , refl ; Ebreak → 22 , refl ; Jalr → 23 , refl ; Add → 24 , refl
  ; Swsp → 25 , refl }

-- the fields that a form stands for have the format of its row
format-of-form : (form : ShortForm) (o : ShortOperands)
  → format-of (expanded-fields form o) ≡ table (form-table form .row·) .format·
format-of-form = λ
  { Addi4spn o → refl ; Lw o → refl ; Sw o → refl ; Addi o → refl ; Jal o → refl ; Li o → refl
  ; Addi16sp o → refl ; Lui o → refl ; Srli o → refl ; Srai o → refl ; Andi o → refl ; Sub o → refl
  ; Xor o → refl ; Or o → refl ; And o → refl ; J o → refl ; Beqz o → refl ; Bnez o → refl
  ; Slli o → refl ; Lwsp o → refl ; Jr o → refl ; Mv o → refl ; Ebreak o → refl ; Jalr o → refl
  ; Add o → refl ; Swsp o → refl }

format-of-short : {h : ℕ} {row : Row} {f : Fields} → ShortStandsFor h row f
  → format-of f ≡ table row .format·
format-of-short s = trans (cong format-of (s .fields-are·))
  (trans (format-of-form (s .form·) (s .operands·))
    (cong (λ r → table r .format·) (sym (s .row-is·))))

-- ---- half-words

-- a half-word is a form with operands
IsForm : ℕ → Set
IsForm h = Σ ShortForm λ form → Σ ShortOperands λ o → IsShort h form o

find-guessed : (h : ℕ) (forms : List ShortForm) → Option (IsForm h)
find-guessed h [] = None
find-guessed h (form ∷ forms) with is-short? h form (guessed form h)
... | yes is = Some (form , _ , is)
... | no n = find-guessed h forms

find-any : (h : ℕ) (forms : List ShortForm) → IsForm h ⊎ Each (λ form → ¬ HasOperands h form) forms
find-any h [] = inj₂ []
find-any h (form ∷ forms) with has-operands? h form
... | yes (a , b , x , is) = inj₁ (form , operands a b x , is)
... | no n with find-any h forms
...   | inj₁ found = inj₁ found
...   | inj₂ ns = inj₂ (n ∷ ns)

-- a half-word stands for a row with its fields
Stands : ℕ → Set
Stands h = Σ Row λ row → Σ Fields λ f → ShortStandsFor h row f

stands : {h : ℕ} → IsForm h → Stands h
stands (form , o , is) = _ , _ , record
  { form· = form ; operands· = o ; is· = is ; row-is· = refl ; fields-are· = refl }

decode-short : (h : ℕ) → Stands h ⊎ ((row : Row) (f : Fields) → ¬ ShortStandsFor h row f)
decode-short h with find-guessed h all-forms
... | Some found = inj₁ (stands found)
... | None with find-any h all-forms
...   | inj₁ found = inj₁ (stands found)
...   | inj₂ ns = inj₂ λ row f s → each-there ns (among (s .form·))
  (s .operands· .first· , s .operands· .second· , s .operands· .imm· , s .is·)
