{-# OPTIONS --safe --without-K #-}
module laws.Numbers where
-- What the laws use of numbers: sums of digits and their parts, remainders of whole numbers, and
-- two's complement. The operations are those of the definitions; the facts come from Agda's
-- standard library, whose sums are on the same numbers (its n + m is the definitions' m + n).
open import Prelude
open import rrs-instruction.Words using (floor-div; floor-mod)
open import Relation.Binary.PropositionalEquality using (sym; trans; cong; cong₂; subst)
open import Data.Empty using (⊥-elim)
open import Data.Nat.Divisibility.Core using (divides)
module N where
  open import Data.Nat.Base public
  open import Data.Nat.Properties public
  open import Data.Nat.DivMod public
open import Data.Nat.Solver using (module +-*-Solver)

-- ---- the order: the definitions' test and the library's relation

test< : (m n : ℕ) → nat-lt m n ≡ true → m N.< n
test< m n e = N.<ᵇ⇒< m n (subst Holds (sym e) tt) where
  open import Data.Bool.Base renaming (T to Holds)
<test : {m n : ℕ} → m N.< n → nat-lt m n ≡ true
<test {m} {n} h with nat-lt m n | N.<⇒<ᵇ h
... | true | _ = refl
below : {m n : ℕ} → m < n → m N.< n
below {m} {n} (lt e) = test< m n e
false-test : {m n : ℕ} → n N.≤ m → nat-lt m n ≡ false
false-test {m} {n} h with nat-lt m n | test< m n
... | true | t = ⊥-elim (N.<⇒≱ (t refl) h)
... | false | _ = refl
test≮ : (m n : ℕ) → nat-lt m n ≡ false → n N.≤ m
test≮ m n e = N.≮⇒≥ λ h → differ (trans (sym (<test h)) e) where
  differ : true ≡ false → ⊥
  differ ()

-- ---- quotients and remainders

-- the low part of a number, and the rest
low-part : (x d n : ℕ) → x N.< n → (x + d * n) % n ≡ x
low-part x d (suc k) h = trans (cong (_% suc k) (N.+-comm (d * suc k) x))
  (trans (N.[m+kn]%n≡m%n x d k) (N.m≤n⇒m%n≡m (N.≤-pred h)))
high-part : (x d n : ℕ) → x N.< n → (x + d * n) / n ≡ d
high-part x d (suc k) h = trans (N.+-distrib-/-∣ˡ x (divides d refl))
  (trans (cong₂ N._+_ (N.m*n/n≡m d (suc k)) (N.m<n⇒m/n≡0 h)) (N.+-identityʳ d))
small : (x n : ℕ) → x N.< n → x % n ≡ x
small x (suc k) h = N.m≤n⇒m%n≡m (N.≤-pred h)
remainder-below : (x n : ℕ) → 0 N.< n → x % n N.< n
remainder-below x (suc k) _ = N.m%n<n x k
parts : (x n : ℕ) → x ≡ x % n + x / n * n
parts x zero = refl
parts x (suc k) = trans (N.m≡m%n+[m/n]*n x k) (N.+-comm (x % suc k) _)

-- a digit m of a number with lower part x
place-below : {x d n m : ℕ} → x N.< n → d N.< m → x + d * n N.< m * n
place-below {x} {d} {n} {m} h k = N.<-transˡ (N.+-monoʳ-< (d * n) h)
  (subst (N._≤ m * n) (N.+-comm n (d * n)) (N.*-monoˡ-≤ n k))

-- ---- sums of digits

-- A number written as a sum of digits, each with the size of its place, lowest first.
data Places : Set where
  only : {d n : ℕ} → d < n → Places
  _▸_ : Places → {d m : ℕ} → d < m → Places
infixl 10 _▸_
limit value : Places → ℕ
limit (only {n = n} _) = n
limit (_▸_ p {m = m} _) = m * limit p
value (only {d} _) = d
value (_▸_ p {d} _) = value p + d * limit p
value-below : (p : Places) → value p N.< limit p
value-below (only h) = below h
value-below (p ▸ h) = place-below (value-below p) (below h)

-- one of the digits: the weight and the size of its place, and its value
data Digit : Places → ℕ → ℕ → ℕ → Set where
  first : {d n : ℕ} {h : d < n} → Digit (only h) 1 n d
  here : {p : Places} {d m : ℕ} {h : d < m} → Digit (p ▸ h) (limit p) m d
  there : {p : Places} {d m : ℕ} {h : d < m} {weight size digit : ℕ}
    → Digit p weight size digit → Digit (p ▸ h) weight size digit

-- the places above a digit begin at a multiple of its end
end : {p : Places} {weight size digit : ℕ} → Digit p weight size digit
  → Σ ℕ λ k → limit p ≡ k * (size * weight)
end (first {n = n}) = 1 , sym (trans (N.*-identityˡ (n * 1)) (N.*-identityʳ n))
end (here {p} {m = m}) = 1 , sym (N.*-identityˡ (m * limit p))
end (there {m = m} {weight = weight} {size} d) with end d
... | k , q = m * k , trans (cong (m *_) q) (sym (N.*-assoc m k (size * weight)))

-- what is added above a place does not change the digit there
above : (x e k weight size : ℕ) → 0 N.< weight → 0 N.< size
  → (x + e * (k * (size * weight))) / weight % size ≡ x / weight % size
above x e k (suc v) (suc s) _ _ = trans (cong (λ z → (z N.+ x) / suc v % suc s) grouped)
  (trans (cong (_% suc s) (trans (N.+-distrib-/-∣ˡ x {suc v} (divides (e * k * suc s) refl))
    (cong (N._+ x / suc v) (N.m*n/n≡m (e * k * suc s) (suc v)))))
  (trans (cong (_% suc s) (N.+-comm (e * k * suc s) (x / suc v)))
      (N.[m+kn]%n≡m%n (x / suc v) (e * k) s)))
  where
  grouped : e * (k * (suc s * suc v)) ≡ e * k * suc s * suc v
  grouped = trans (sym (N.*-assoc e k (suc s * suc v))) (sym (N.*-assoc (e * k) (suc s) (suc v)))

positive : {m n : ℕ} → m N.< n → 0 N.< n
positive h = N.<-transʳ N.z≤n h
weight-positive : {p : Places} {weight size digit : ℕ} → Digit p weight size digit → 0 N.< weight
weight-positive first = N.s≤s N.z≤n
weight-positive (here {p}) = positive (value-below p)
weight-positive (there d) = weight-positive d
digit-below : {p : Places} {weight size digit : ℕ} → Digit p weight size digit → digit N.< size
digit-below (first {h = h}) = below h
digit-below (here {h = h}) = below h
digit-below (there d) = digit-below d

-- The digit at a place is the quotient by its weight, modulo its size.
found : {p : Places} {weight size digit : ℕ} → Digit p weight size digit
  → value p / weight % size ≡ digit
found (first {d} {n} {h}) = trans (cong (_% n) (N.n/1≡n d)) (small d n (below h))
found (here {p} {d} {m} {h}) = trans (cong (_% m)
  (high-part (value p) d (limit p) (value-below p))) (small d m (below h))
found (there {p} {d = e} {weight = weight} {size} d) with end d
... | k , q = trans (cong (λ z → (value p + e * z) / weight % size) q)
  (trans (above (value p) e k weight size (weight-positive d) (positive (digit-below d))) (found d))

-- ---- whole numbers: remainders

-- the remainder of a negative number is the complement of that of what is below it
complement : ℕ → ℕ → ℕ
complement n x = n - 1 - x
complement-sum : (n x : ℕ) → x N.< n → suc (x N.+ complement n x) ≡ n
complement-sum (suc k) x (N.s≤s h) = cong suc (N.m+[n∸m]≡n h)
complement-is : (n x y : ℕ) → suc (x N.+ y) ≡ n → complement n x ≡ y
complement-is _ x y refl = N.m+n∸m≡n x y
complement-below : (n x : ℕ) → 0 N.< n → complement n x N.< n
complement-below (suc k) x _ = N.s≤s (N.m∸n≤m k x)
floor-mod-below : (z : ℤ) (n : ℕ) → 0 N.< n → floor-mod z n N.< n
floor-mod-below (pos x) n h = remainder-below x n h
floor-mod-below (negsuc x) n h = complement-below n (x % n) h

-- Two remainders, one after the other, are one by the product.
join : (z : ℤ) (a b : ℕ) → 0 N.< a → 0 N.< b → floor-mod z a + floor-mod (floor-div z a) b * a
  ≡ floor-mod z (b * a)
join (pos x) a b a>0 b>0 = sym (trans (cong (_% (b * a)) split)
  (low-part (x % a + x / a % b * a) (x / a / b) (b * a) bound)) where
  open +-*-Solver
  bound : x % a + x / a % b * a N.< b * a
  bound = place-below (remainder-below x a a>0) (remainder-below (x / a) b b>0)
  split : x ≡ x % a + x / a % b * a + x / a / b * (b * a)
  split = trans (parts x a) (trans (cong (λ q → x % a + q * a) (parts (x / a) b))
    (solve 5 (λ s u v a b → (v :* b :+ u) :* a :+ s := v :* (b :* a) :+ (u :* a :+ s)) refl (x % a)
        (x / a % b) (x / a / b) a b))
join (negsuc x) a b a>0 b>0 = sym (trans (cong (complement (b * a))
  (sym (join (pos x) a b a>0 b>0)))
  (complement-is (b * a) (s + u * a) (complement a s + complement b u * a) whole)) where
  open +-*-Solver
  s = x % a
  u = x / a % b
  whole : suc ((s + u * a) N.+ (complement a s + complement b u * a)) ≡ b * a
  whole = trans (solve 5 (λ s u t v a → con 1 :+ (u :* a :+ s :+ (v :* a :+ t)) :=
      (con 1 :+ (s :+ t)) :+ (u :+ v) :* a)
      refl s u (complement a s) (complement b u) a)
    (trans (cong (N._+ (u N.+ complement b u) * a) (complement-sum a s (remainder-below x a a>0)))
      (cong (_* a) (complement-sum b u (remainder-below (x / a) b b>0))))

-- ---- whole numbers: two's complement

-- a whole number from -h to h - 1
data Within (h : ℕ) : ℤ → Set where
  nonnegative : {n : ℕ} → n N.< h → Within h (pos n)
  negative : {n : ℕ} → n N.< h → Within h (negsuc n)
-- the bounds of an immediate as the definitions write them
within : (l u : ℕ) (z : ℤ) → negsuc l ≤ℤ z → z ≤ℤ pos u → u N.≤ l → Within (suc l) z
within l u (pos n) _ (leℤ e) h = nonnegative (N.<-transˡ (test< n (suc u) e) (N.s≤s h))
within l u (negsuc n) (leℤ e) _ _ = negative (test< n (suc l) e)

-- the number that x < 2 * h is, in two's complement
from-complement : ℕ → ℕ → ℤ
from-complement h x = if nat-lt x h then pos x else pos x -ℤ pos (2 * h)
from-complement-of : (h : ℕ) (z : ℤ) → Within h z → from-complement h (floor-mod z (2 * h)) ≡ z
from-complement-of h (pos n) (nonnegative b) with floor-mod (pos n) (2 * h) | small n (2 * h)
  (N.<-transˡ b (N.m≤m+n h _))
... | _ | refl rewrite <test b = refl
from-complement-of (suc k) (negsuc n) (negative (N.s≤s b)) = trans
  (cong (from-complement h) wrapped)
  (trans (cong (λ c → if c then pos x else pos x -ℤ pos (2 * h)) upper-half)
  (trans (cong (λ c → if c then negsuc (2 * h - suc x) else pos (x - 2 * h))
      (<test (complement-below (2 * h) n (N.s≤s N.z≤n))))
    (cong negsuc taken)))
  where
  h = suc k
  x = complement (2 * h) n
  n-below : n N.< 2 * h
  n-below = N.s≤s (N.≤-trans b (N.m≤m+n k _))
  wrapped : floor-mod (negsuc n) (2 * h) ≡ x
  wrapped = cong (complement (2 * h)) (small n (2 * h) n-below)
  sum : suc (n N.+ x) ≡ 2 * h
  sum = complement-sum (2 * h) n n-below
  upper-half : nat-lt x h ≡ false
  upper-half = false-test (N.+-cancelˡ-≤ h (N.≤-trans
      (N.≤-reflexive (trans (cong (h N.+_) (sym (N.+-identityʳ h))) (sym sum)))
    (N.+-monoˡ-≤ x (N.s≤s b))))
  taken : 2 * h - suc x ≡ n
  taken = trans (cong (_- suc x) (trans (sym sum) (sym (N.+-suc n x)))) (N.m+n∸n≡m n (suc x))
