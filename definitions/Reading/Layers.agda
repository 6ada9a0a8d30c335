{-# OPTIONS --safe --without-K #-}
-- The decoding of the words that the table leaves out, as the definitions have it: the instructions
-- of machine mode, those of extension A, of Zba to Zicond, and those of the layers that a profile
-- has.
module Reading.Layers where

open import Prelude
open import Data.Sum.Base using (inj₁; inj₂)
open import Relation.Binary.PropositionalEquality using (sym; trans; cong; subst)
open import Relation.Nullary using (Dec; yes; no)
open import rrs-instruction.Declared
open import rrs-instruction.Encodings
open import rrs-instruction.Table using (InI; InR)
open import machine-words.Declared using
  ( SystemRow; Csrrw; Csrrs; Csrrc; Csrrwi; Csrrsi; Csrrci; Mret; Wfi; FenceI
  ; HartProfile; fence-i·; atomics·; LayerInstruction; System; Atomic
  ; AtomicRow; LrW; ScW; AmoSwap; AmoAdd; AmoXor; AmoAnd; AmoOr; AmoMin; AmoMax; AmoMinu; AmoMaxu
  ; Bits; BitOperand; Register; NotX0; Amount; Fixed; BitRow
  ; Sh1add ; Sh2add ; Sh3add ; Andn ; Orn ; Xnor ; Clz ; Ctz ; Cpop ; Max ; Maxu ; Min ; Minu
  ; SextB ; SextH ; ZextH ; Rol ; Ror ; Rori ; OrcB ; Rev8 ; Bclr ; Bclri ; Bext ; Bexti ; Binv
  ; Binvi ; Bset ; Bseti ; Clmul ; Clmulh ; Clmulr ; Pack ; Packh ; Brev8 ; Zip ; Unzip ; CzeroEqz
  ; CzeroNez)
open import machine-words.SystemInstructions
open import machine-words.AtomicInstructions
open import machine-words.BitInstructions
open import hart.Profiles using (IsOfProfile; has-bits; has-layer)
open import Reading.Decoding
open import laws.Fields using (fields-of; read-back)

-- ---- the instructions that the table leaves out

-- the fields that a word has, if it is one of them: those of format I
i-fields-of : Fields → IType
i-fields-of (I f) = f
i-fields-of _ = record { imm· = pos 0 ; rs1· = 0 ; funct3· = 0 ; rd· = 0 }

i-fields : ℕ → IType
i-fields w = i-fields-of (fields-of InI w)

all-system-rows : List SystemRow
all-system-rows = Csrrw ∷ Csrrs ∷ Csrrc ∷ Csrrwi ∷ Csrrsi ∷ Csrrci ∷ Mret ∷ Wfi ∷ FenceI ∷ []

place : SystemRow → ℕ
place Csrrw = 0
place Csrrs = 1
place Csrrc = 2
place Csrrwi = 3
place Csrrsi = 4
place Csrrci = 5
place Mret = 6
place Wfi = 7
place FenceI = 8

placed : (row : SystemRow) → slice-get all-system-rows (place row) ≡ Some row
placed = λ { Csrrw → refl ; Csrrs → refl ; Csrrc → refl ; Csrrwi → refl ; Csrrsi → refl
           ; Csrrci → refl ; Mret → refl ; Wfi → refl ; FenceI → refl }

system-opcode-below : (row : SystemRow) → system-table row .opcode· < 2 ^ 7
system-opcode-below = λ { Csrrw → lt refl ; Csrrs → lt refl ; Csrrc → lt refl ; Csrrwi → lt refl
  ; Csrrsi → lt refl ; Csrrci → lt refl ; Mret → lt refl ; Wfi → lt refl ; FenceI → lt refl }

-- a word that is one of them has no other fields than these
only-i-fields : {w : ℕ} {row : SystemRow} {f : IType} → IsSystem w row f → f ≡ i-fields w
only-i-fields {w} {row} {f} is = trans
  (sym (cong i-fields-of
    (read-back (system-table row .opcode·) (I f) (system-opcode-below row) (is .in-range·))))
  (cong i-fields (sym (is .encoded·)))

is-system? : (w : ℕ) (row : SystemRow) → Dec (IsSystem w row (i-fields w))
is-system? w row with i-fields w .funct3· ≡? system-table row .funct3·
... | no n = no λ is → n (is .funct3·)
... | yes m with w ≡? encode (system-table row .opcode·) (I (i-fields w))
...   | no n = no λ is → n (is .encoded·)
...   | yes e with meets-operands? (system-table row .operands·) (I (i-fields w))
...     | no n = no λ is → n (is .operands·)
...     | yes o with in-range? (I (i-fields w))
...       | no n = no λ is → n (is .in-range·)
...       | yes r = yes (record { in-range· = r ; funct3· = m ; operands· = o ; encoded· = e })

find-system : (w : ℕ) (rows : List SystemRow)
  → (Σ SystemRow λ row → IsSystem w row (i-fields w))
    ⊎ Each (λ row → ¬ IsSystem w row (i-fields w)) rows
find-system w [] = inj₂ []
find-system w (row ∷ rows) with is-system? w row
... | yes is = inj₁ (row , is)
... | no n with find-system w rows
...   | inj₁ found = inj₁ found
...   | inj₂ ns = inj₂ (n ∷ ns)

decode-system : (w : ℕ)
  → (Σ SystemRow λ row → IsSystem w row (i-fields w))
    ⊎ ((row : SystemRow) (f : IType) → ¬ IsSystem w row f)
decode-system w with find-system w all-system-rows
... | inj₁ found = inj₁ found
... | inj₂ ns = inj₂ λ row f is → each-at (place row) ns (placed row)
                  (subst (IsSystem w row) (only-i-fields is) is)

-- ---- the instructions of extension A

-- the fields that a word has, if it is one of them: those of format R
r-fields-of : Fields → RType
r-fields-of (R f) = f
r-fields-of _ = record { funct7· = 0 ; rs2· = 0 ; rs1· = 0 ; funct3· = 0 ; rd· = 0 }

r-fields : ℕ → RType
r-fields w = r-fields-of (fields-of InR w)

all-atomic-rows : List AtomicRow
all-atomic-rows = LrW ∷ ScW ∷ AmoSwap ∷ AmoAdd ∷ AmoXor ∷ AmoAnd ∷ AmoOr ∷ AmoMin ∷ AmoMax ∷ AmoMinu
  ∷ AmoMaxu ∷ []

atomic-place : AtomicRow → ℕ
atomic-place LrW = 0
atomic-place ScW = 1
atomic-place AmoSwap = 2
atomic-place AmoAdd = 3
atomic-place AmoXor = 4
atomic-place AmoAnd = 5
atomic-place AmoOr = 6
atomic-place AmoMin = 7
atomic-place AmoMax = 8
atomic-place AmoMinu = 9
atomic-place AmoMaxu = 10

atomic-placed : (row : AtomicRow) → slice-get all-atomic-rows (atomic-place row) ≡ Some row
atomic-placed = λ { LrW → refl ; ScW → refl ; AmoSwap → refl ; AmoAdd → refl ; AmoXor → refl
  ; AmoAnd → refl ; AmoOr → refl ; AmoMin → refl ; AmoMax → refl ; AmoMinu → refl
  ; AmoMaxu → refl }

-- a word that is one of them has no other fields than these
only-r-fields : {w : ℕ} {row : AtomicRow} {f : RType} → IsAtomic w row f → f ≡ r-fields w
only-r-fields {w} {row} {f} is = trans
  (sym (cong r-fields-of (read-back 0x2f (R f) (lt refl) (is .in-range·))))
  (cong r-fields (sym (is .encoded·)))

no-operand? : (row : AtomicRow) (n : ℕ) → Dec (row ≡ LrW → n ≡ 0)
no-operand? LrW n with n ≡? 0
... | yes zero-is = yes λ _ → zero-is
... | no n-is = no λ h → n-is (h refl)
no-operand? ScW n = yes λ ()
no-operand? AmoSwap n = yes λ ()
no-operand? AmoAdd n = yes λ ()
no-operand? AmoXor n = yes λ ()
no-operand? AmoAnd n = yes λ ()
no-operand? AmoOr n = yes λ ()
no-operand? AmoMin n = yes λ ()
no-operand? AmoMax n = yes λ ()
no-operand? AmoMinu n = yes λ ()
no-operand? AmoMaxu n = yes λ ()

is-atomic? : (w : ℕ) (row : AtomicRow) → Dec (IsAtomic w row (r-fields w))
is-atomic? w row with r-fields w .funct3· ≡? 2
... | no n = no λ is → n (is .width·)
... | yes three with r-fields w .funct7· / 2 ^ 2 ≡? atomic-table row .funct5·
...   | no n = no λ is → n (is .funct5·)
...   | yes five with w ≡? encode 0x2f (R (r-fields w))
...     | no n = no λ is → n (is .encoded·)
...     | yes e with no-operand? row (r-fields w .rs2·)
...       | no n = no λ is → n (is .no-operand·)
...       | yes o with in-range? (R (r-fields w))
...         | no n = no λ is → n (is .in-range·)
...         | yes r = yes (record
  { in-range· = r ; width· = three ; funct5· = five ; no-operand· = o ; encoded· = e })

find-atomic : (w : ℕ) (rows : List AtomicRow)
  → (Σ AtomicRow λ row → IsAtomic w row (r-fields w))
    ⊎ Each (λ row → ¬ IsAtomic w row (r-fields w)) rows
find-atomic w [] = inj₂ []
find-atomic w (row ∷ rows) with is-atomic? w row
... | yes is = inj₁ (row , is)
... | no n with find-atomic w rows
...   | inj₁ found = inj₁ found
...   | inj₂ ns = inj₂ (n ∷ ns)

decode-atomic : (w : ℕ)
  → (Σ AtomicRow λ row → IsAtomic w row (r-fields w))
    ⊎ ((row : AtomicRow) (f : RType) → ¬ IsAtomic w row f)
decode-atomic w with find-atomic w all-atomic-rows
... | inj₁ found = inj₁ found
... | inj₂ ns = inj₂ λ row f is → each-at (atomic-place row) ns (atomic-placed row)
                  (subst (IsAtomic w row) (only-r-fields is) is)

-- ---- the instructions of Zba to Zicond

all-bit-rows : List BitRow
all-bit-rows =
  Sh1add ∷ Sh2add ∷ Sh3add ∷ Andn ∷ Orn ∷ Xnor ∷ Clz ∷ Ctz ∷ Cpop ∷ Max ∷ Maxu ∷ Min ∷ Minu ∷
  SextB ∷ SextH ∷ ZextH ∷ Rol ∷ Ror ∷ Rori ∷ OrcB ∷ Rev8 ∷ Bclr ∷ Bclri ∷ Bext ∷ Bexti ∷ Binv ∷
  Binvi ∷ Bset ∷ Bseti ∷ Clmul ∷ Clmulh ∷ Clmulr ∷ Pack ∷ Packh ∷ Brev8 ∷ Zip ∷ Unzip ∷
  CzeroEqz ∷ CzeroNez ∷ []

bit-place : BitRow → ℕ
bit-place Sh1add = 0
bit-place Sh2add = 1
bit-place Sh3add = 2
bit-place Andn = 3
bit-place Orn = 4
bit-place Xnor = 5
bit-place Clz = 6
bit-place Ctz = 7
bit-place Cpop = 8
bit-place Max = 9
bit-place Maxu = 10
bit-place Min = 11
bit-place Minu = 12
bit-place SextB = 13
bit-place SextH = 14
bit-place ZextH = 15
bit-place Rol = 16
bit-place Ror = 17
bit-place Rori = 18
bit-place OrcB = 19
bit-place Rev8 = 20
bit-place Bclr = 21
bit-place Bclri = 22
bit-place Bext = 23
bit-place Bexti = 24
bit-place Binv = 25
bit-place Binvi = 26
bit-place Bset = 27
bit-place Bseti = 28
bit-place Clmul = 29
bit-place Clmulh = 30
bit-place Clmulr = 31
bit-place Pack = 32
bit-place Packh = 33
bit-place Brev8 = 34
bit-place Zip = 35
bit-place Unzip = 36
bit-place CzeroEqz = 37
bit-place CzeroNez = 38

bit-placed : (row : BitRow) → slice-get all-bit-rows (bit-place row) ≡ Some row
bit-placed = λ {
  Sh1add → refl ; Sh2add → refl ; Sh3add → refl ; Andn → refl ; Orn → refl ; Xnor → refl ;
  Clz → refl ; Ctz → refl ; Cpop → refl ; Max → refl ; Maxu → refl ; Min → refl ; Minu → refl ;
  SextB → refl ; SextH → refl ; ZextH → refl ; Rol → refl ; Ror → refl ; Rori → refl ;
  OrcB → refl ; Rev8 → refl ; Bclr → refl ; Bclri → refl ; Bext → refl ; Bexti → refl ;
  Binv → refl ; Binvi → refl ; Bset → refl ; Bseti → refl ; Clmul → refl ; Clmulh → refl ;
  Clmulr → refl ; Pack → refl ; Packh → refl ; Brev8 → refl ; Zip → refl ; Unzip → refl ;
  CzeroEqz → refl ; CzeroNez → refl }

bit-opcode-below : (row : BitRow) → bit-table row .opcode· < 2 ^ 7
bit-opcode-below = λ {
  Sh1add → lt refl ; Sh2add → lt refl ; Sh3add → lt refl ; Andn → lt refl ; Orn → lt refl ;
  Xnor → lt refl ; Clz → lt refl ; Ctz → lt refl ; Cpop → lt refl ; Max → lt refl ;
  Maxu → lt refl ; Min → lt refl ; Minu → lt refl ; SextB → lt refl ; SextH → lt refl ;
  ZextH → lt refl ; Rol → lt refl ; Ror → lt refl ; Rori → lt refl ; OrcB → lt refl ;
  Rev8 → lt refl ; Bclr → lt refl ; Bclri → lt refl ; Bext → lt refl ; Bexti → lt refl ;
  Binv → lt refl ; Binvi → lt refl ; Bset → lt refl ; Bseti → lt refl ; Clmul → lt refl ;
  Clmulh → lt refl ; Clmulr → lt refl ; Pack → lt refl ; Packh → lt refl ; Brev8 → lt refl ;
  Zip → lt refl ; Unzip → lt refl ; CzeroEqz → lt refl ; CzeroNez → lt refl }

-- a word that is one of them has no other fields than these
only-bit-fields : {w : ℕ} {row : BitRow} {f : RType} → IsBits w row f → f ≡ r-fields w
only-bit-fields {w} {row} {f} is = trans
  (sym (cong r-fields-of
    (read-back (bit-table row .opcode·) (R f) (bit-opcode-below row) (is .in-range·))))
  (cong r-fields (sym (is .encoded·)))

operand? : (o : BitOperand) (n : ℕ) → Dec (IsOperand o n)
operand? Register n = yes tt
operand? NotX0 n with n ≡? 0
... | yes is = no λ not → not is
... | no not = yes not
operand? Amount n = yes tt
operand? (Fixed m) n = n ≡? m

has-bits? : (row : BitRow) (f : RType) → Dec (HasBits row f)
has-bits? row f with f .funct7· ≡? bit-table row .funct7·
... | no n = no λ has → n (has .funct7·)
... | yes seven with f .funct3· ≡? bit-table row .funct3·
...   | no n = no λ has → n (has .funct3·)
...   | yes three with operand? (bit-table row .operand·) (f .rs2·)
...     | no n = no λ has → n (has .operand·)
...     | yes o = yes (record { funct7· = seven ; funct3· = three ; operand· = o })

is-bits? : (w : ℕ) (row : BitRow) → Dec (IsBits w row (r-fields w))
is-bits? w row with has-bits? row (r-fields w)
... | no n = no λ is → n (is .has·)
... | yes has with w ≡? encode (bit-table row .opcode·) (R (r-fields w))
...   | no n = no λ is → n (is .encoded·)
...   | yes e with in-range? (R (r-fields w))
...     | no n = no λ is → n (is .in-range·)
...     | yes r = yes (record { in-range· = r ; has· = has ; encoded· = e })

-- one that the profile has
IsBitsOf : HartProfile → ℕ → BitRow → Set
IsBitsOf p w row = (has-bits p (bit-table row .extension·) ≡ true) × IsBits w row (r-fields w)

is-bits-of? : (p : HartProfile) (w : ℕ) (row : BitRow) → Dec (IsBitsOf p w row)
is-bits-of? p w row with test (has-bits p (bit-table row .extension·))
... | no n = no λ of → n (proj₁ of)
... | yes has with is-bits? w row
...   | no n = no λ of → n (proj₂ of)
...   | yes is = yes (has , is)

find-bits : (p : HartProfile) (w : ℕ) (rows : List BitRow)
  → (Σ BitRow λ row → IsBitsOf p w row) ⊎ Each (λ row → ¬ IsBitsOf p w row) rows
find-bits p w [] = inj₂ []
find-bits p w (row ∷ rows) with is-bits-of? p w row
... | yes of = inj₁ (row , of)
... | no n with find-bits p w rows
...   | inj₁ found = inj₁ found
...   | inj₂ ns = inj₂ (n ∷ ns)

-- ---- the layers of a profile

-- an instruction of extension A that the profile has
profile-atomic? : (p : HartProfile) (w : ℕ)
  → (Σ LayerInstruction λ i → IsOfProfile p w i)
    ⊎ ((row : AtomicRow) (f : RType) → p .atomics· ≡ true → ¬ IsAtomic w row f)
profile-atomic? p w with test (p .atomics·)
... | no n = inj₂ λ row f has is → n has
... | yes has with decode-atomic w
...   | inj₁ (row , is) = inj₁ (Atomic (record { row· = row ; fields· = r-fields w }) , has , is)
...   | inj₂ none = inj₂ λ row f has is → none row f is

-- fence.i, where the profile has it
profile-fence? : (p : HartProfile) (w : ℕ)
  → (Σ LayerInstruction λ i → IsOfProfile p w i)
    ⊎ ((f : IType) → p .fence-i· ≡ true → ¬ IsSystem w FenceI f)
profile-fence? p w with test (p .fence-i·)
... | no n = inj₂ λ f has is → n has
... | yes has with is-system? w FenceI
...   | yes is = inj₁ (System (record { row· = FenceI ; fields· = i-fields w }) , has , is)
...   | no n = inj₂ λ f has is → n (subst (IsSystem w FenceI) (only-i-fields is) is)

-- an instruction of Zba to Zicond that the profile has
profile-bits? : (p : HartProfile) (w : ℕ)
  → (Σ LayerInstruction λ i → IsOfProfile p w i)
    ⊎ ((row : BitRow) (f : RType) → has-bits p (bit-table row .extension·) ≡ true
      → ¬ IsBits w row f)
profile-bits? p w with find-bits p w all-bit-rows
... | inj₁ (row , of) = inj₁ (Bits (record { row· = row ; fields· = r-fields w }) , of)
... | inj₂ ns = inj₂ λ row f has is → each-at (bit-place row) ns (bit-placed row)
                  (has , subst (IsBits w row) (only-bit-fields is) is)

layer? : (p : HartProfile) (w : ℕ)
  → (Σ LayerInstruction λ i → IsOfProfile p w i) ⊎ ((i : LayerInstruction) → ¬ IsOfProfile p w i)
layer? p w with profile-atomic? p w
... | inj₁ found = inj₁ found
... | inj₂ no-atomic with profile-fence? p w
...   | inj₁ found = inj₁ found
...   | inj₂ no-fence with profile-bits? p w
...     | inj₁ found = inj₁ found
...     | inj₂ no-bits = inj₂ none
  where
  none-is : (row : SystemRow) (f : IType)
    → ¬ IsOfProfile p w (System (record { row· = row ; fields· = f }))
  none-is FenceI f (has , is) = no-fence f has is
  none-is Csrrw f (() , is)
  none-is Csrrs f (() , is)
  none-is Csrrc f (() , is)
  none-is Csrrwi f (() , is)
  none-is Csrrsi f (() , is)
  none-is Csrrci f (() , is)
  none-is Mret f (() , is)
  none-is Wfi f (() , is)
  none : (i : LayerInstruction) → ¬ IsOfProfile p w i
  none (Atomic i) (has , is) = no-atomic _ _ has is
  none (System i) is = none-is _ _ is
  none (Bits i) (has , is) = no-bits _ _ has is
