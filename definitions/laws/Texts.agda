{-# OPTIONS --safe --without-K #-}
-- A text is the word again: at one address two words have equal texts exactly where they are one
-- word, or two words of fence, whose fields no text shows. A text is cut into tokens at its spaces,
-- commas and parentheses. The first is the name, which tells the row, and each other one gives back
-- the number that it was written from.
module laws.Texts where
open import Prelude
open import Data.Empty using (⊥-elim)
open import Data.Sum.Base using (inj₁; inj₂)
open import Relation.Binary.PropositionalEquality using (sym; trans; cong; cong₂; subst)
open import rrs-instruction.Declared
open import rrs-instruction.Words using (floor-mod; word)
open import rrs-instruction.Results using (plus-immediate)
open import rrs-instruction.Encodings
open import rrs-instruction.Table
open import rrs-memory.Hexadecimal using (hexadecimal)
open import rrs-lib.Texts
open import rrs-extra.Showing using (shown; AreOneOrFences)
open import laws.Numbers
open import laws.OneRow using (is-one-row-at-most; one-number; both; either)
open import laws.OneStep using (is-some-of)
open import Reading.Decoding
open import Reading.Steps using (format-by; format-agrees)

-- ---- tokens

-- A token has no character below the minus, as a space, a comma and a parenthesis are.
in-token : ℕ → Bool
in-token c = nat-le 45 c

IsToken : List ℕ → Set
IsToken xs = all-pass in-token xs ≡ true

behind : List ℕ → List ℕ → List (List ℕ)
behind [] t = t ∷ []
behind (c ∷ s) t = if in-token c then onto-first c (behind s t) else [] ∷ behind s t

-- Outside of this block no text is cut but by these lemmas.
abstract
  cut : List ℕ → List (List ℕ)
  cut = slice-split λ c → not (in-token c)

  first-token : (xs : List ℕ) → Σ (List ℕ) λ t → Σ (List (List ℕ)) λ ts → cut xs ≡ t ∷ ts
  first-token [] = _ , _ , refl
  first-token (x ∷ xs) with in-token x | first-token xs
  ... | true | t , ts , e = _ , _ , cong (onto-first x) e
  ... | false | _ = _ , _ , refl

  -- A token, and one behind the rest of a separator. That of `, 0x` has an x and a 0, and is in part
  -- of the token itself.
  cut-token : (t : List ℕ) → IsToken t → cut t ≡ t ∷ []
  cut-token [] is = refl
  cut-token (c ∷ cs) is with in-token c
  ... | true = cong (onto-first c) (cut-token cs is)

  cut-behind : (s t : List ℕ) → IsToken t → cut (s ++ t) ≡ behind s t
  cut-behind [] t is = cut-token t is
  cut-behind (c ∷ s) t is with in-token c
  ... | true = cong (onto-first c) (cut-behind s t is)
  ... | false = cong ([] ∷_) (cut-behind s t is)

  -- a text is cut at a character that is in no token
  cut-at : (xs : List ℕ) (c : ℕ) (s t : List ℕ) → in-token c ≡ false
    → cut (xs ++ (c ∷ s) ++ t) ≡ cut xs ++ cut (s ++ t)
  cut-at [] c s t no rewrite no = refl
  cut-at (x ∷ xs) c s t no with in-token x | first-token xs
  ... | false | _ = cong ([] ∷_) (cut-at xs c s t no)
  ... | true | u , us , e = trans (cong (onto-first x) (trans (cut-at xs c s t no)
    (cong (_++ cut (s ++ t)) e))) (cong (λ ts → onto-first x ts ++ cut (s ++ t)) (sym e))

-- a text that goes on by a separator and a token, or that ends with a parenthesis
more : {xs : List ℕ} {ts : List (List ℕ)} → cut xs ≡ ts → (c : ℕ) (s : List ℕ) {t : List ℕ}
  → in-token c ≡ false → IsToken t → cut (xs ++ (c ∷ s) ++ t) ≡ ts ++ behind s t
more {xs} refl c s {t} no is = trans (cut-at xs c s t no) (cong (cut xs ++_) (cut-behind s t is))

closed : {xs : List ℕ} {ts : List (List ℕ)} → cut xs ≡ ts → cut (xs ++ codes ")") ≡ ts ++ ([] ∷ [])
closed {xs} e = trans (cong cut (nothing-more (xs ++ codes ")"))) (more {xs} e 41 [] {[]} refl refl)
  where
  nothing-more : {A : Set} (ys : List A) → ys ≡ ys ++ []
  nothing-more [] = refl
  nothing-more (y ∷ ys) = cong (y ∷_) (nothing-more ys)

-- ---- numerals

-- what a digit was written from, and digits after a number
digit-of : ℕ → ℕ
digit-of c = if nat-lt c 58 then c - 48 else c - 87

read : ℕ → ℕ → List ℕ → ℕ
read base n [] = n
read base n (c ∷ cs) = read base (digit-of c + n * base) cs

if-true : {b : Bool} {x y : ℕ} → b ≡ true → (if b then x else y) ≡ x
if-true refl = refl
if-false : {b : Bool} {x y : ℕ} → b ≡ false → (if b then x else y) ≡ y
if-false refl = refl

digit-back : (d : ℕ) → digit-of (digit-glyph false d) ≡ d
digit-back d with nat-lt d 10 in e
... | true =
  trans (if-true (<test {d N.+ 48} {58} (N.+-monoˡ-< 48 (test< d 10 e)))) (N.m+n∸n≡m d 48)
... | false = trans (if-false (false-test {d N.+ 87} {58} (N.≤-trans (test≮ 87 58 refl)
  (N.m≤n+m 87 d)))) (N.m+n∸n≡m d 87)

-- the digits of a number, before others, are read as this number
digits-back : (k base b n : ℕ) (cs : List ℕ) → base ≡ suc b → n N.< base ^ k
  → read base 0 (digits-onto k base false n cs) ≡ read base n cs
digits-back zero _ b zero cs refl h = refl
digits-back zero _ b (suc n) cs refl (N.s≤s ())
digits-back (suc k) _ b n cs refl h with n / suc b == 0 in e
... | true = cong (λ m → read (suc b) m cs) (trans (digit-back (n % suc b)) (sym
  (trans (parts n (suc b)) (cong (λ q → n % suc b + q * suc b) (same→≡ (n / suc b) 0 e)))))
... | false = trans
  (digits-back k (suc b) b (n / suc b) _ refl (quotient-below n (suc b ^ k) b h))
  (cong (λ m → read (suc b) m cs)
  (trans (cong (_+ n / suc b * suc b) (digit-back (n % suc b))) (sym (parts n (suc b)))))
  where
  quotient-below : (n m b : ℕ) → n N.< m * suc b → n / suc b N.< m
  quotient-below n m b h = N.≰⇒> λ m≤ → N.<⇒≱ h (N.≤-trans (N.*-monoˡ-≤ (suc b) m≤)
    (subst (n / suc b * suc b N.≤_) (sym (parts n (suc b))) (N.m≤m+n _ _)))

-- digits, and letters, as tokens are made of them
is-digit : ℕ → Bool
is-digit c = nat-le 48 c

AreDigits : List ℕ → Set
AreDigits xs = all-pass is-digit xs ≡ true

and-true : {b c : Bool} → b ≡ true → c ≡ true → b && c ≡ true
and-true refl refl = refl

glyph-is : (d : ℕ) → is-digit (digit-glyph false d) ≡ true
glyph-is d with nat-lt d 10
... | true = <test (N.s≤s (N.m≤n+m 48 d))
... | false = <test (N.s≤s (N.≤-trans (test≮ 87 48 refl) (N.m≤n+m 87 d)))

digits-are : (k base n : ℕ) (cs : List ℕ) → AreDigits cs → AreDigits (digits-onto k base false n cs)
digits-are zero base n cs a = a
digits-are (suc k) base n cs a with n / base == 0
... | true = and-true (glyph-is (n % base)) a
... | false = digits-are k base (n / base) _ (and-true (glyph-is (n % base)) a)

digits-token : (xs : List ℕ) → AreDigits xs → IsToken xs
digits-token [] a = refl
digits-token (x ∷ xs) a with both (is-digit x) _ a
... | d , ds =
  and-true (<test (N.<-transʳ (test≮ 48 45 refl) (test< 48 (suc x) d))) (digits-token xs ds)

-- numbers, as the texts have them
below-by : (n m l : ℕ) → n N.< m → nat-lt l m ≡ false → n N.< l
below-by n m l h e = N.<-transˡ h (test≮ l m e)

decimal-back : (n : ℕ) → n N.< 2 ^ 12 → read 10 0 (decimal n) ≡ n
decimal-back n h = digits-back 64 10 9 n [] refl (below-by n (2 ^ 12) (10 ^ 64) h refl)

zeros-back : (k : ℕ) (xs : List ℕ) → read 16 0 (replicate k 48 ++ xs) ≡ read 16 0 xs
zeros-back zero xs = refl
zeros-back (suc k) xs = zeros-back k xs

zeros-are : (k : ℕ) (xs : List ℕ) → AreDigits xs → AreDigits (replicate k 48 ++ xs)
zeros-are zero xs a = a
zeros-are (suc k) xs a = zeros-are k xs a

hexadecimal-back : (k n : ℕ) → n N.< 2 ^ 32 → read 16 0 (hexadecimal k n) ≡ n
hexadecimal-back k n h = trans (zeros-back (k - length (digits 16 false n)) (digits 16 false n))
  (digits-back 64 16 15 n [] refl (below-by n (2 ^ 32) (16 ^ 64) h refl))

signed-of : List ℕ → ℤ
signed-of [] = pos 0
signed-of (c ∷ cs) = if c == 45 then neg-ℤ (pos (read 10 0 cs)) else pos (read 10 0 (c ∷ cs))

signed-digits : (xs : List ℕ) → AreDigits xs → signed-of xs ≡ pos (read 10 0 xs)
signed-digits [] a = refl
signed-digits (c ∷ cs) a with c == 45 in e
... | false = refl
... | true with same→≡ c 45 e
...   | refl with a
...     | ()

signed-back : (z : ℤ) → Within (2 ^ 11) z → signed-of (signed-decimal z) ≡ z
signed-back (pos n) (nonnegative h) = trans
  (signed-digits (decimal n) (digits-are 64 10 n [] refl))
  (cong pos (decimal-back n (below-by n (2 ^ 11) (2 ^ 12) h refl)))
signed-back (negsuc n) (negative h) = cong (λ m → neg-ℤ (pos m))
  (decimal-back (suc n) (N.<-transʳ h (test< (2 ^ 11) (2 ^ 12) refl)))

-- ---- names

-- Each name is a token, and no two rows have the same, which Agda finds by comparing all.
name-token : (row : Row) → IsToken (name-of row)
name-token row = each-at (table row .number· - 1)
  (each-passes (λ row → all-pass in-token (name-of row)) all-rows refl) (numbered row)

bytes-alike : (xs : List ℕ) → bytes-eq xs xs ≡ true
bytes-alike [] = refl
bytes-alike (x ∷ xs) = and-true (≡→same x) (bytes-alike xs)

names-differ : Row → Row → Bool
names-differ row row' =
  nat-eq (table row .number·) (table row' .number·) || not (bytes-eq (name-of row) (name-of row'))

all-names-differ : (row row' : Row) → names-differ row row' ≡ true
all-names-differ row row' = each-at (table row' .number· - 1)
  (each-passes (names-differ row) all-rows
  (each-at (table row .number· - 1) (each-passes
    (λ row → all-pass (names-differ row) all-rows) all-rows refl) (numbered row))) (numbered row')

same-row : (row row' : Row) → name-of row ≡ name-of row' → row ≡ row'
same-row row row' e = one-number row row' (same→≡ _ _ (is-same (all-names-differ row row')))
  where
  is-same : names-differ row row' ≡ true → nat-eq (table row .number·) (table row' .number·) ≡ true
  is-same d with nat-eq (table row .number·) (table row' .number·)
  ... | true = refl
  ... | false with bytes-eq (name-of row) (name-of row')
                 | subst (λ n → bytes-eq (name-of row) n ≡ true) e (bytes-alike (name-of row))
  is-same () | false | true | refl

-- ---- the tokens of texts

register-token : (r : ℕ) → IsToken (register r)
register-token r = digits-token (register r) (digits-are 64 10 r [] refl)
decimal-token : (n : ℕ) → IsToken (decimal n)
decimal-token n = digits-token (decimal n) (digits-are 64 10 n [] refl)
signed-token : (z : ℤ) → IsToken (signed-decimal z)
signed-token (pos n) = decimal-token n
signed-token (negsuc n) = decimal-token (suc n)
hexadecimal-token : (k n : ℕ) → IsToken (hexadecimal k n)
hexadecimal-token k n = digits-token (hexadecimal k n)
  (zeros-are (k - length (digits 16 false n)) _ (digits-are 64 16 n [] refl))

name : (row : Row) → cut (name-of row) ≡ name-of row ∷ []
name row = cut-token (name-of row) (name-token row)

three : (row : Row) (a b : ℕ) {t : List ℕ} → IsToken t → cut (name-of row ++ codes " " ++ register a
  ++ codes ", " ++ register b ++ codes ", " ++ t)
  ≡ name-of row ∷ register a ∷ [] ∷ register b ∷ [] ∷ t ∷ []
three row a b is = more (more (more (name row) 32 [] refl (register-token a)) 44 (32 ∷ []) refl
  (register-token b)) 44 (32 ∷ []) refl is

and-word : (row : Row) (rd x : ℕ) → cut (register-and-word row rd x)
  ≡ name-of row ∷ register rd ∷ [] ∷ (48 ∷ 120 ∷ hexadecimal 8 x) ∷ []
and-word row rd x = more (more (name row) 32 [] refl (register-token rd)) 44 (codes " 0x") refl
  (hexadecimal-token 8 x)

branch-tokens : BType → ℕ → List (List ℕ)
branch-tokens f pc = register (f .rs1·) ∷ [] ∷ register (f .rs2·) ∷ []
  ∷ (48 ∷ 120 ∷ hexadecimal 8 (plus-immediate pc (f .imm·))) ∷ []

branch : (row : Row) (f : BType) (pc : ℕ) → cut (branch-to row f pc)
  ≡ name-of row ∷ branch-tokens f pc
branch row f pc = more (more (more (name row) 32 [] refl (register-token (f .rs1·))) 44 (32 ∷ [])
  refl (register-token (f .rs2·))) 44 (codes " 0x") refl
  (hexadecimal-token 8 (plus-immediate pc (f .imm·)))

and-place : (row : Row) (r : ℕ) (imm : ℤ) (base : ℕ) → cut (register-and-place row r imm base)
  ≡ name-of row ∷ register r ∷ [] ∷ signed-decimal imm ∷ register base ∷ [] ∷ []
and-place row r imm base = closed (more (more (more (name row) 32 [] refl (register-token r)) 44
  (32 ∷ []) refl (signed-token imm)) 40 [] refl (register-token base))

-- ---- what is read from them

wider : (h k : ℕ) {z : ℤ} → nat-lt k h ≡ false → Within h z → Within k z
wider h k e (nonnegative {n} b) = nonnegative (below-by n h k b e)
wider h k e (negative {n} b) = negative (below-by n h k b e)

-- a register, a word behind 0x, and the summand of a sum modulo 2 ^ 32 with the address
register-in word-in : List ℕ → ℕ
register-in t = read 10 0 (drop 1 t)
word-in t = read 16 0 (drop 2 t)

register-back : (r : ℕ) → r < 2 ^ 5 → register-in (register r) ≡ r
register-back r h = decimal-back r (below-by r (2 ^ 5) (2 ^ 12) (below h) refl)

word-below : (z : ℤ) → word z N.< 2 ^ 32
word-below z = floor-mod-below z (2 ^ 32) (test< 0 (2 ^ 32) refl)

word-back : (k : ℕ) (z : ℤ) → Within (2 ^ 31) z
  → from-complement (2 ^ 31) (word-in (48 ∷ 120 ∷ hexadecimal k (word z))) ≡ z
word-back k z b = trans
  (cong (from-complement (2 ^ 31)) (hexadecimal-back k (word z) (word-below z)))
  (from-complement-of (2 ^ 31) z b)

summand : ℕ → ℕ → ℕ → ℕ
summand n p s = (s N.+ (n - p % n)) % n

summand-back : (n p x : ℕ) → x N.< n → summand n p ((p + x) % n) ≡ x
summand-back (suc k) p x h = trans (N.%-distribˡ-+ ((x N.+ p) % suc k) rest (suc k)) (trans
  (cong (λ m → (m N.+ rest % suc k) % suc k) (N.m%n%n≡m%n (x N.+ p) k))
  (trans (sym (N.%-distribˡ-+ (x N.+ p) rest (suc k))) (trans (cong (_% suc k)
  (trans (N.+-assoc x p rest) (cong (x N.+_) whole)))
  (trans (N.[m+kn]%n≡m%n x (suc (p / suc k)) k) (small x (suc k) h)))))
  where
  rest = suc k - p % suc k
  whole : p N.+ rest ≡ suc (p / suc k) N.* suc k
  whole = trans (cong (N._+ rest) (trans (parts p (suc k)) (N.+-comm (p / suc k * suc k) _)))
    (trans (N.+-assoc (p % suc k) _ rest) (trans (cong (p % suc k N.+_) (N.+-comm _ rest))
    (trans (sym (N.+-assoc (p % suc k) rest _)) (cong (N._+ p / suc k * suc k)
    (N.m+[n∸m]≡n (N.<⇒≤ (N.m%n<n p k)))))))

offset-in : ℕ → List ℕ → ℤ
offset-in pc t = from-complement (2 ^ 31) (summand (2 ^ 32) pc (word-in t))

offset-back : (pc : ℕ) (z : ℤ) → Within (2 ^ 31) z
  → offset-in pc (48 ∷ 120 ∷ hexadecimal 8 (plus-immediate pc z)) ≡ z
offset-back pc z b = trans (cong (λ x → from-complement (2 ^ 31) (summand (2 ^ 32) pc x))
  (hexadecimal-back 8 (word (pos (pc + word z))) (word-below (pos (pc + word z)))))
  (trans (cong (from-complement (2 ^ 31)) (summand-back (2 ^ 32) pc (word z) (word-below z)))
  (from-complement-of (2 ^ 31) z b))

-- ---- what a text shows

-- The row gives the fields that its texts do not show: all but fence do.
others-given : Action → Operands → Bool
others-given NoEffect Free = false
others-given CallEnvironment Free = false
others-given Break Free = false
others-given _ _ = true

-- the tokens behind the name, as what `shown` has of the fields
register-at immediate-at word-at : List (List ℕ) → ℕ → ℤ
register-at ts i = pos (register-in (slice-index-or ts i []))
immediate-at ts i = signed-of (slice-index-or ts i [])
word-at ts i = from-complement (2 ^ 31) (word-in (slice-index-or ts i []))
offset-at : ℕ → List (List ℕ) → ℕ → ℤ
offset-at pc ts i = offset-in pc (slice-index-or ts i [])

numbers : Action → Operands → ℕ → List (List ℕ) → List ℤ
numbers (OnRegisters op) o pc ts = register-at ts 0 ∷ register-at ts 2 ∷ register-at ts 4 ∷ []
numbers (OnImmediate op) o pc ts = register-at ts 0 ∷ register-at ts 2 ∷ immediate-at ts 4 ∷ []
numbers (OnShamt op) o pc ts = register-at ts 0 ∷ register-at ts 2 ∷ immediate-at ts 4 ∷ []
numbers LoadUpper o pc ts = register-at ts 0 ∷ word-at ts 2 ∷ []
numbers AddUpperToPc o pc ts = register-at ts 0 ∷ offset-at pc ts 2 ∷ []
numbers (BranchIf test) o pc ts = register-at ts 0 ∷ register-at ts 2 ∷ offset-at pc ts 4 ∷ []
numbers (BranchUnless test) o pc ts = register-at ts 0 ∷ register-at ts 2 ∷ offset-at pc ts 4 ∷ []
numbers (Load n extended) o pc ts = register-at ts 0 ∷ register-at ts 3 ∷ immediate-at ts 2 ∷ []
numbers (Store n) o pc ts = register-at ts 0 ∷ register-at ts 3 ∷ immediate-at ts 2 ∷ []
numbers JumpAndLink o pc ts = register-at ts 0 ∷ offset-at pc ts 2 ∷ []
numbers JumpAndLinkRegister o pc ts = register-at ts 0 ∷ register-at ts 3 ∷ word-at ts 2 ∷ []
numbers _ (Fixed z) pc ts = pos 0 ∷ pos 0 ∷ z ∷ []
numbers _ Free pc ts = []

two-of : {a a' : ℕ} {z z' : ℤ} → a' ≡ a → z' ≡ z
  → _≡_ {A = List ℤ} (pos a' ∷ z' ∷ []) (pos a ∷ z ∷ [])
two-of refl refl = refl
three-of : {a a' b b' : ℕ} {z z' : ℤ} → a' ≡ a → b' ≡ b → z' ≡ z
  → _≡_ {A = List ℤ} (pos a' ∷ pos b' ∷ z' ∷ []) (pos a ∷ pos b ∷ z ∷ [])
three-of refl refl refl = refl

-- an immediate in its range
range : (l u k : ℕ) → nat-lt l u ≡ false → nat-lt k (suc l) ≡ false → {z : ℤ} → negsuc l ≤ℤ z
  → z ≤ℤ pos u → Within k z
range l u k e e' {z} low high = wider (suc l) k e' (within l u z low high (test≮ l u e))

-- a text is cut into the name and tokens, which show the fields
Shows : Action → Operands → Row → Fields → ℕ → Set
Shows a o row f pc = Σ (List (List ℕ)) λ ts → (option-map cut (text-by a row f pc)
  ≡ Some (name-of row ∷ ts)) × OnTrue (others-given a o) (numbers a o pc ts ≡ shown f)

shows-fields : (a : Action) (o : Operands) (row : Row) (f : Fields) (pc : ℕ)
  → format-of f ≡ format-by a → IsInRange f → MeetsOperands o f → Shows a o row f pc
shows-fields (OnRegisters op) o row (R f) pc e (d , _ , a , b , _) m =
  _ , cong Some (three row (f .rd·) (f .rs1·) (register-token (f .rs2·)))
  , three-of (register-back _ d) (register-back _ a) (cong pos (register-back _ b))
shows-fields (OnImmediate op) o row (I f) pc e (d , _ , a , l , h) m =
  _ , cong Some (three row (f .rd·) (f .rs1·) (signed-token (f .imm·)))
  , three-of (register-back _ d) (register-back _ a)
  (signed-back (f .imm·) (range 2047 2047 (2 ^ 11) refl refl l h))
shows-fields (OnShamt op) o row (IShamt f) pc e (d , _ , a , b , _) m =
  _ , cong Some (three row (f .rd·) (f .rs1·) (decimal-token (f .shamt·)))
  , three-of (register-back _ d) (register-back _ a) (signed-back (pos (f .shamt·))
  (nonnegative (below-by (f .shamt·) (2 ^ 5) (2 ^ 11) (below b) refl)))
shows-fields LoadUpper o row (U f) pc e (d , l , h , _) m =
  _ , cong Some (and-word row (f .rd·) (word (f .imm·))) , two-of (register-back _ d)
  (word-back 8 (f .imm·) (range 2147483647 2147479552 (2 ^ 31) refl refl l h))
shows-fields AddUpperToPc o row (U f) pc e (d , l , h , _) m =
  _ , cong Some (and-word row (f .rd·) (plus-immediate pc (f .imm·))) , two-of (register-back _ d)
  (offset-back pc (f .imm·) (range 2147483647 2147479552 (2 ^ 31) refl refl l h))
shows-fields (BranchIf test) o row (B f) pc e (_ , a , b , l , h , _) m =
  _ , cong Some (branch row f pc) , three-of (register-back _ a) (register-back _ b)
  (offset-back pc (f .imm·) (range 4095 4094 (2 ^ 31) refl refl l h))
shows-fields (BranchUnless test) o row (B f) pc e (_ , a , b , l , h , _) m =
  _ , cong Some (branch row f pc) , three-of (register-back _ a) (register-back _ b)
  (offset-back pc (f .imm·) (range 4095 4094 (2 ^ 31) refl refl l h))
shows-fields (Load n extended) o row (I f) pc e (d , _ , a , l , h) m =
  _ , cong Some (and-place row (f .rd·) (f .imm·) (f .rs1·)) , three-of (register-back _ d)
  (register-back _ a) (signed-back (f .imm·) (range 2047 2047 (2 ^ 11) refl refl l h))
shows-fields (Store n) o row (S f) pc e (_ , a , b , l , h) m =
  _ , cong Some (and-place row (f .rs2·) (f .imm·) (f .rs1·)) , three-of (register-back _ b)
  (register-back _ a) (signed-back (f .imm·) (range 2047 2047 (2 ^ 11) refl refl l h))
shows-fields JumpAndLink o row (J f) pc e (d , l , h , _) m =
  _ , cong Some (and-word row (f .rd·) (plus-immediate pc (f .imm·))) , two-of (register-back _ d)
  (offset-back pc (f .imm·) (range 1048575 1048574 (2 ^ 31) refl refl l h))
shows-fields JumpAndLinkRegister o row (I f) pc e (d , _ , a , l , h) m =
  _ , cong Some (closed (more (more (more (name row) 32 [] refl (register-token (f .rd·))) 44
    (codes " 0x") refl (hexadecimal-token 3 (word (f .imm·)))) 40 [] refl
    (register-token (f .rs1·)))) , three-of (register-back _ d) (register-back _ a)
  (word-back 3 (f .imm·) (range 2047 2047 (2 ^ 31) refl refl l h))
shows-fields NoEffect Free row (I f) pc e r m = _ , cong Some (name row) , tt
shows-fields CallEnvironment Free row (I f) pc e r m = _ , cong Some (name row) , tt
shows-fields Break Free row (I f) pc e r m = _ , cong Some (name row) , tt
shows-fields NoEffect (Fixed z) row (I f) pc e r (d , a , i) =
  _ , cong Some (name row) , three-of (sym d) (sym a) (sym i)
shows-fields CallEnvironment (Fixed z) row (I f) pc e r (d , a , i) =
  _ , cong Some (name row) , three-of (sym d) (sym a) (sym i)
shows-fields Break (Fixed z) row (I f) pc e r (d , a , i) =
  _ , cong Some (name row) , three-of (sym d) (sym a) (sym i)

-- ---- the fields

-- The row gives funct3 and funct7, where its format has them, and what its texts do not show, but
-- for fence, which has number 46.
functs-given : Format → Constraint → Constraint → Bool
functs-given InR (Exactly m) (Exactly n) = true
functs-given InIShamt (Exactly m) (Exactly n) = true
functs-given InI (Exactly m) c = true
functs-given InS (Exactly m) c = true
functs-given InB (Exactly m) c = true
functs-given InU c d = true
functs-given InJ c d = true
functs-given _ _ _ = false

gives : Row → Bool
gives row = functs-given (table row .format·) (table row .funct3·) (table row .funct7·)
  && (nat-eq (table row .number·) 46 || others-given (table row .action·) (table row .operands·))

all-give : (row : Row) → gives row ≡ true
all-give row = each-at (table row .number· - 1) (each-passes gives all-rows refl) (numbered row)

same-fields : (c3 c7 : Constraint) (f f' : Fields) → functs-given (format-of f) c3 c7 ≡ true
  → format-of f ≡ format-of f' → MeetsFuncts c3 c7 f → MeetsFuncts c3 c7 f' → shown f ≡ shown f'
  → f ≡ f'
same-fields (Exactly m) (Exactly n) (R record {}) (R record {}) _ _ (refl , refl) (refl , refl)
  refl = refl
same-fields (Exactly m) c7 (I record {}) (I record {}) _ _ refl refl refl = refl
same-fields (Exactly m) (Exactly n) (IShamt record {}) (IShamt record {}) _ _ (refl , refl)
  (refl , refl) refl = refl
same-fields (Exactly m) c7 (S record {}) (S record {}) _ _ refl refl refl = refl
same-fields (Exactly m) c7 (B record {}) (B record {}) _ _ refl refl refl = refl
same-fields c3 c7 (U record {}) (U record {}) _ _ _ _ refl = refl
same-fields c3 c7 (J record {}) (J record {}) _ _ _ _ refl = refl

-- ---- the law

same-head : {A : Set} {x y : A} {xs ys : List A} → _≡_ {A = List A} (x ∷ xs) (y ∷ ys) → x ≡ y
same-head refl = refl
same-tail : {A : Set} {x y : A} {xs ys : List A} → _≡_ {A = List A} (x ∷ xs) (y ∷ ys) → xs ≡ ys
same-tail refl = refl

on-true : {b : Bool} {P : Set} → b ≡ true → OnTrue b P → P
on-true refl p = p

one-or-fences : {w w' : ℕ} {row row' : Row} {f f' : Fields} (pc : ℕ) → Decodes w row f
  → Decodes w' row' f' → text-of row f pc ≡ text-of row' f' pc → AreOneOrFences w w'
one-or-fences {w} {w'} {row} {row'} {f} {f'} pc d d' same =
  by-row (same-row row row' (same-head e)) d d' (shows d) (shows d') (same-tail e)
  where
  ShowsBy : Row → Fields → Set
  ShowsBy row f = Shows (table row .action·) (table row .operands·) row f pc
  shows : {w : ℕ} {row : Row} {f : Fields} → Decodes w row f → ShowsBy row f
  shows {row = row} {f} d = shows-fields (table row .action·) (table row .operands·) row f pc
    (trans (d .format·) (format-agrees row)) (d .in-range·) (d .operands·)
  e : name-of row ∷ proj₁ (shows d) ≡ name-of row' ∷ proj₁ (shows d')
  e = is-some-of (trans (sym (proj₁ (proj₂ (shows d))))
    (trans (cong (option-map cut) same) (proj₁ (proj₂ (shows d')))))
  by-row : {row row' : Row} → row ≡ row' → Decodes w row f → Decodes w' row' f'
    → (x : ShowsBy row f) (x' : ShowsBy row' f') → proj₁ x ≡ proj₁ x' → AreOneOrFences w w'
  by-row {row} refl d d' (ts , _ , x) (ts' , _ , x') t with both _ _ (all-give row)
  ... | functs , given with either (nat-eq (table row .number·) 46) _ given
  ...   | inj₁ is with one-number row Fence (same→≡ _ 46 is)
  ...     | refl = inj₂ ((f , d) , (f' , d'))
  by-row {row} refl d d' (ts , _ , x) (ts' , _ , x') t | functs , given | inj₂ others =
    inj₁ (trans (d .encoded·) (trans (cong (encode (table row .opcode·)) fields)
    (sym (d' .encoded·))))
    where
    fields : f ≡ f'
    fields = same-fields (table row .funct3·) (table row .funct7·) f f'
      (subst (λ k → functs-given k _ _ ≡ true) (sym (d .format·)) functs)
      (trans (d .format·) (sym (d' .format·))) (d .functs·) (d' .functs·)
      (trans (sym (on-true others x)) (trans
      (cong (numbers (table row .action·) (table row .operands·) pc) t) (on-true others x')))

-- a word has at most one text at an address, whatever row and fields it is read as
one-text : {w : ℕ} {row row' : Row} {f f' : Fields} (pc : ℕ) → Decodes w row f → Decodes w row' f'
  → text-of row f pc ≡ text-of row' f' pc
one-text {w} {row} {row'} {f} {f'} pc d d' with is-one-row-at-most w row row' f f' d d'
... | refl , refl = refl

-- the text of fence shows none of its fields
fence-text : {w : ℕ} {f : Fields} (pc : ℕ) → Decodes w Fence f → text-of Fence f pc
  ≡ Some (codes "fence")
fence-text {f = I f} pc d = refl
fence-text {f = R _} pc record { format· = () }
fence-text {f = IShamt _} pc record { format· = () }
fence-text {f = S _} pc record { format· = () }
fence-text {f = B _} pc record { format· = () }
fence-text {f = U _} pc record { format· = () }
fence-text {f = J _} pc record { format· = () }

equal-texts : {w w' : ℕ} {row row' : Row} {f f' : Fields} (pc : ℕ) → Decodes w row f
  → Decodes w' row' f' → AreOneOrFences w w' → text-of row f pc ≡ text-of row' f' pc
equal-texts pc d d' (inj₁ refl) = one-text pc d d'
equal-texts pc d d' (inj₂ ((g , is) , (g' , is'))) = trans (one-text pc d is)
  (trans (trans (fence-text pc is) (sym (fence-text pc is'))) (one-text pc is' d'))
