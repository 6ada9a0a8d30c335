{-# OPTIONS --safe --without-K #-}
module laws.Fields where
-- Each format's fields are one tuple: a word gives them back. `fields-of format w` reads the fields
-- out of a word, as a decoder does. `read-back` says that a word that was encoded from fields in
-- their ranges, in any of the seven formats, gives these fields.
open import Prelude
open import rrs-instruction.Declared
open import rrs-instruction.Words using (floor-div; floor-mod)
open import rrs-instruction.Encodings
open import rrs-instruction.Table
open import laws.Numbers
open import Relation.Binary.PropositionalEquality using (sym; trans; cong; subst)

-- ---- reading

-- bits `low` to `low + width - 1` of a word
part : ℕ → ℕ → ℕ → ℕ
part w low width = w / 2 ^ low % 2 ^ width

-- the bits of the immediate of a word, joined: bit 0 is 0 where immediates are even
i-bits s-bits b-bits u-bits j-bits : ℕ → ℕ
i-bits w = part w 20 12
s-bits w = part w 7 5 + part w 25 7 * 2 ^ 5
b-bits w = 0 + part w 8 4 * 2 ^ 1 + part w 25 6 * 2 ^ 5 + part w 7 1 * 2 ^ 11 + part w 31 1 * 2 ^ 12
u-bits w = 0 + part w 12 20 * 2 ^ 12
j-bits w = 0 + part w 21 10 * 2 ^ 1 + part w 20 1 * 2 ^ 11 + part w 12 8 * 2 ^ 12 + part w 31 1 * 2
  ^ 20

fields-of : Format → ℕ → Fields
fields-of InR w = R (record { rd· = part w 7 5 ; funct3· = part w 12 3 ; rs1· = part w 15 5
  ; rs2· = part w 20 5 ; funct7· = part w 25 7 })
fields-of InI w = I (record { rd· = part w 7 5 ; funct3· = part w 12 3 ; rs1· = part w 15 5
  ; imm· = from-complement (2 ^ 11) (i-bits w) })
fields-of InIShamt w = IShamt (record { rd· = part w 7 5 ; funct3· = part w 12 3 ; rs1· =
  part w 15 5 ; shamt· = part w 20 5 ; funct7· = part w 25 7 })
fields-of InS w = S (record { funct3· = part w 12 3 ; rs1· = part w 15 5 ; rs2· = part w 20 5
  ; imm· = from-complement (2 ^ 11) (s-bits w) })
fields-of InB w = B (record { funct3· = part w 12 3 ; rs1· = part w 15 5 ; rs2· = part w 20 5
  ; imm· = from-complement (2 ^ 12) (b-bits w) })
fields-of InU w = U (record { rd· = part w 7 5 ; imm· = from-complement (2 ^ 31) (u-bits w) })
fields-of InJ w = J (record { rd· = part w 7 5
  ; imm· = from-complement (2 ^ 20) (j-bits w) })

-- ---- a word as a sum of digits

-- a remainder, as a digit
remainder : (z : ℤ) (n : ℕ) → nat-lt 0 n ≡ true → floor-mod z n < n
remainder z n h = lt (<test (floor-mod-below z n (test< 0 n h)))
bits : (z : ℤ) (low width : ℕ) → nat-lt 0 (2 ^ width) ≡ true
  → immediate-bits z low width < 2 ^ width
bits z low width h = remainder (floor-div z (2 ^ low)) (2 ^ width) h

-- The digits of a word are its opcode and fields, in the order of their places.
places : (op : ℕ) (f : Fields) → op < 2 ^ 7 → IsInRange f → Places
places op (R f) o (rd , funct3 , rs1 , rs2 , funct7) = only o ▸ rd ▸ funct3 ▸ rs1 ▸ rs2 ▸ funct7
places op (I f) o (rd , funct3 , rs1 , _) = only o ▸ rd ▸ funct3 ▸ rs1 ▸ remainder (f .imm·)
  (2 ^ 12) refl
places op (IShamt f) o (rd , funct3 , rs1 , shamt , funct7) =
  only o ▸ rd ▸ funct3 ▸ rs1 ▸ shamt ▸ funct7
places op (S f) o (funct3 , rs1 , rs2 , _) = only o ▸ remainder (f .imm·)
  (2 ^ 5) refl ▸ funct3 ▸ rs1 ▸ rs2 ▸ bits (f .imm·) 5 7 refl
places op (B f) o (funct3 , rs1 , rs2 , _) = only o ▸ bits (f .imm·) 11 1 refl ▸ bits
  (f .imm·) 1 4 refl
  ▸ funct3 ▸ rs1 ▸ rs2 ▸ bits (f .imm·) 5 6 refl ▸ bits (f .imm·) 12 1 refl
places op (U f) o (rd , _) = only o ▸ rd ▸ bits (f .imm·) 12 20 refl
places op (J f) o (rd , _) = only o ▸ rd ▸ bits (f .imm·) 12 8 refl ▸ bits (f .imm·) 11 1 refl
  ▸ bits (f .imm·) 1 10 refl ▸ bits (f .imm·) 20 1 refl

-- The word is the sum of these digits: the definition of `encode` says so, format by format.
encoded : (op : ℕ) (f : Fields) (o : op < 2 ^ 7) (r : IsInRange f) → value (places op f o r)
  ≡ encode op f
encoded op (R f) o r = refl
encoded op (I f) o r = refl
encoded op (IShamt f) o r = refl
encoded op (S f) o r = refl
encoded op (B f) o r = refl
encoded op (U f) o r = refl
encoded op (J f) o r = refl

-- ---- reading gives back what was encoded

-- The part of a word at the place of a digit is this digit.
at : {op : ℕ} (f : Fields) (o : op < 2 ^ 7) (r : IsInRange f) (low width : ℕ) {digit : ℕ}
  → Digit (places op f o r) (2 ^ low) (2 ^ width) digit → part (encode op f) low width ≡ digit
at {op} f o r low width d = trans (cong (λ w → part w low width) (sym (encoded op f o r))) (found d)

-- An immediate in its range is the two's complement of its low bits.
immediate : (l u h : ℕ) (z : ℤ) → suc l ≡ h → nat-lt l u ≡ false → negsuc l ≤ℤ z → z ≤ℤ pos u
  → (x : ℕ) → x ≡ floor-mod z (2 * h) → from-complement h x ≡ z
immediate l u _ z refl e low high _ refl = from-complement-of (suc l) z
  (within l u z low high (test≮ l u e))

-- The parts of an immediate, joined again from the lowest on: bits 0 to low - 1 with the next ones.
joined : (z : ℤ) (low width : ℕ) → nat-lt 0 (2 ^ low) ≡ true → nat-lt 0 (2 ^ width) ≡ true
  → {x y : ℕ}
  → x ≡ floor-mod z (2 ^ low) → y ≡ immediate-bits z low width → x + y * 2 ^ low
      ≡ floor-mod z (2 ^ width * 2 ^ low)
joined z low width l w refl refl = join z (2 ^ low) (2 ^ width) (test< 0 _ l) (test< 0 _ w)

-- equal fields make equal tuples
same-R : {a b c d e a' b' c' d' e' : ℕ} → a ≡ a' → b ≡ b' → c ≡ c' → d ≡ d' → e ≡ e'
  → _≡_ {A = RType} (record { rd· = a ; funct3· = b ; rs1· = c ; rs2· = d ; funct7· = e })
    (record { rd· = a' ; funct3· = b' ; rs1· = c' ; rs2· = d' ; funct7· = e' })
same-R refl refl refl refl refl = refl
same-I : {a b c a' b' c' : ℕ} {i i' : ℤ} → a ≡ a' → b ≡ b' → c ≡ c' → i ≡ i'
  → _≡_ {A = IType} (record { rd· = a ; funct3· = b ; rs1· = c ; imm· = i })
      (record { rd· = a' ; funct3· = b' ; rs1· = c' ; imm· = i' })
same-I refl refl refl refl = refl
same-IShamt : {a b c d e a' b' c' d' e' : ℕ} → a ≡ a' → b ≡ b' → c ≡ c' → d ≡ d' → e ≡ e'
  → _≡_ {A = ITypeShamt} (record { rd· = a ; funct3· = b ; rs1· = c ; shamt· = d ; funct7· = e })
    (record { rd· = a' ; funct3· = b' ; rs1· = c' ; shamt· = d' ; funct7· = e' })
same-IShamt refl refl refl refl refl = refl
same-S : {a b c a' b' c' : ℕ} {i i' : ℤ} → a ≡ a' → b ≡ b' → c ≡ c' → i ≡ i'
  → _≡_ {A = SType} (record { funct3· = a ; rs1· = b ; rs2· = c ; imm· = i })
      (record { funct3· = a' ; rs1· = b' ; rs2· = c' ; imm· = i' })
same-S refl refl refl refl = refl
same-B : {a b c a' b' c' : ℕ} {i i' : ℤ} → a ≡ a' → b ≡ b' → c ≡ c' → i ≡ i'
  → _≡_ {A = BType} (record { funct3· = a ; rs1· = b ; rs2· = c ; imm· = i })
      (record { funct3· = a' ; rs1· = b' ; rs2· = c' ; imm· = i' })
same-B refl refl refl refl = refl
same-U : {a a' : ℕ} {i i' : ℤ} → a ≡ a' → i ≡ i'
  → _≡_ {A = UType} (record { rd· = a ; imm· = i }) (record { rd· = a' ; imm· = i' })
same-U refl refl = refl
same-J : {a a' : ℕ} {i i' : ℤ} → a ≡ a' → i ≡ i'
  → _≡_ {A = JType} (record { rd· = a ; imm· = i }) (record { rd· = a' ; imm· = i' })
same-J refl refl = refl

-- the places of the digits, the highest first
pattern p0 = here
pattern p1 = there p0
pattern p2 = there p1
pattern p3 = there p2
pattern p4 = there p3
pattern p5 = there p4
pattern p6 = there p5

read-R : (op : ℕ) (f : RType) → op < 2 ^ 7 → IsInRange (R f) → fields-of InR (encode op (R f)) ≡ R f
read-R op f o r = cong R (same-R (is 7 5 p4) (is 12 3 p3) (is 15 5 p2) (is 20 5 p1) (is 25 7 p0))
  where
  is : (low width : ℕ) {digit : ℕ} → Digit (places op (R f) o r) (2 ^ low) (2 ^ width) digit
      → part (encode op (R f)) low width ≡ digit
  is = at (R f) o r

read-IShamt : (op : ℕ) (f : ITypeShamt) → op < 2 ^ 7 → IsInRange (IShamt f)
  → fields-of InIShamt (encode op (IShamt f)) ≡ IShamt f
read-IShamt op f o r = cong IShamt (same-IShamt (is 7 5 p4) (is 12 3 p3) (is 15 5 p2) (is 20 5 p1)
  (is 25 7 p0)) where
  is : (low width : ℕ) {digit : ℕ} → Digit (places op (IShamt f) o r) (2 ^ low) (2 ^ width) digit
      → part (encode op (IShamt f)) low width ≡ digit
  is = at (IShamt f) o r

read-I : (op : ℕ) (f : IType) → op < 2 ^ 7 → IsInRange (I f) → fields-of InI (encode op (I f)) ≡ I f
read-I op f o r@(_ , _ , _ , low , high) = cong I
  (same-I (is 7 5 p3) (is 12 3 p2) (is 15 5 p1)
  (immediate 2047 2047 (2 ^ 11) z refl refl low high (i-bits w) joined-bits)) where
  z = f .imm·
  w = encode op (I f)
  is : (low width : ℕ) {digit : ℕ} → Digit (places op (I f) o r) (2 ^ low) (2 ^ width) digit
      → part w low width ≡ digit
  is = at (I f) o r
  joined-bits : i-bits w ≡ floor-mod z (2 ^ 12)
  joined-bits = is 20 12 p0

read-S : (op : ℕ) (f : SType) → op < 2 ^ 7 → IsInRange (S f) → fields-of InS (encode op (S f)) ≡ S f
read-S op f o r@(_ , _ , _ , low , high) = cong S
  (same-S (is 12 3 p3) (is 15 5 p2) (is 20 5 p1)
  (immediate 2047 2047 (2 ^ 11) z refl refl low high (s-bits w) joined-bits)) where
  z = f .imm·
  w = encode op (S f)
  is : (low width : ℕ) {digit : ℕ} → Digit (places op (S f) o r) (2 ^ low) (2 ^ width) digit
      → part w low width ≡ digit
  is = at (S f) o r
  joined-bits : s-bits w ≡ floor-mod z (2 ^ 12)
  joined-bits = joined z 5 7 refl refl (is 7 5 p4) (is 25 7 p0)

read-B : (op : ℕ) (f : BType) → op < 2 ^ 7 → IsInRange (B f) → fields-of InB (encode op (B f)) ≡ B f
read-B op f o r@(_ , _ , _ , low , high , even) = cong B
  (same-B (is 12 3 p4) (is 15 5 p3) (is 20 5 p2)
  (immediate 4095 4094 (2 ^ 12) z refl refl low high (b-bits w) joined-bits)) where
  z = f .imm·
  w = encode op (B f)
  is : (low width : ℕ) {digit : ℕ} → Digit (places op (B f) o r) (2 ^ low) (2 ^ width) digit
      → part w low width ≡ digit
  is = at (B f) o r
  joined-bits : b-bits w ≡ floor-mod z (2 ^ 13)
  joined-bits = joined z 12 1 refl refl (joined z 11 1 refl refl (joined z 5 6 refl refl
    (joined z 1 4 refl refl (sym even) (is 8 4 p5)) (is 25 6 p1)) (is 7 1 p6)) (is 31 1 p0)

read-U : (op : ℕ) (f : UType) → op < 2 ^ 7 → IsInRange (U f) → fields-of InU (encode op (U f)) ≡ U f
read-U op f o r@(_ , low , high , even) = cong U
  (same-U (is 7 5 p1) (immediate 2147483647 2147479552 (2 ^ 31) z refl refl low high
  (u-bits w) joined-bits)) where
  z = f .imm·
  w = encode op (U f)
  is : (low width : ℕ) {digit : ℕ} → Digit (places op (U f) o r) (2 ^ low) (2 ^ width) digit
      → part w low width ≡ digit
  is = at (U f) o r
  joined-bits : u-bits w ≡ floor-mod z (2 ^ 32)
  joined-bits = joined z 12 20 refl refl (sym even) (is 12 20 p0)

read-J : (op : ℕ) (f : JType) → op < 2 ^ 7 → IsInRange (J f) → fields-of InJ (encode op (J f)) ≡ J f
read-J op f o r@(_ , low , high , even) = cong J
  (same-J (is 7 5 p4) (immediate 1048575 1048574 (2 ^ 20) z refl refl low high
  (j-bits w) joined-bits)) where
  z = f .imm·
  w = encode op (J f)
  is : (low width : ℕ) {digit : ℕ} → Digit (places op (J f) o r) (2 ^ low) (2 ^ width) digit
      → part w low width ≡ digit
  is = at (J f) o r
  joined-bits : j-bits w ≡ floor-mod z (2 ^ 21)
  joined-bits = joined z 20 1 refl refl (joined z 12 8 refl refl (joined z 11 1 refl refl
    (joined z 1 10 refl refl (sym even) (is 21 10 p1)) (is 20 1 p2)) (is 12 8 p3)) (is 31 1 p0)

read-back : (op : ℕ) (f : Fields) → op < 2 ^ 7 → IsInRange f
  → fields-of (format-of f) (encode op f) ≡ f
read-back op (R f) = read-R op f
read-back op (I f) = read-I op f
read-back op (IShamt f) = read-IShamt op f
read-back op (S f) = read-S op f
read-back op (B f) = read-B op f
read-back op (U f) = read-U op f
read-back op (J f) = read-J op f
