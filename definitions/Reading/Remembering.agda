{-# OPTIONS --safe --without-K #-}
-- A function of numbers that remembers its values. After many stores a map of bytes is as many
-- functions, one in the other; a program reads it quickly when it is written anew so.
module Reading.Remembering where

open import Prelude
open import Data.Nat.Base using (s≤s)
open import Data.Nat.DivMod using (m%n<n; m≡m%n+[m/n]*n)
open import Data.Sum.Base using (inj₁; inj₂)
open import Relation.Binary.PropositionalEquality using (sym; trans; cong)

-- the values at the numbers of so many bits, by the lowest bit first
data Tree (A : Set) : Set where
  value : A → Tree A
  even-odd : Tree A → Tree A → Tree A

tree : {A : Set} → ℕ → (ℕ → A) → Tree A
tree zero f = value (f 0)
tree (suc bits) f = even-odd (tree bits λ n → f (n * 2)) (tree bits λ n → f (suc (n * 2)))

-- the value at a number, if it has no more bits
look : {A : Set} → Tree A → ℕ → Option A
look (value x) zero = Some x
look (value x) (suc n) = None
look (even-odd evens odds) n = if n % 2 == 0 then look evens (n / 2) else look odds (n / 2)

-- the value in a tree, or else that of the function
remembers : {A : Set} → Tree A → (ℕ → A) → ℕ → A
remembers t f n = unwrap-or (look t n) (f n)

remembered : {A : Set} → ℕ → (ℕ → A) → ℕ → A
remembered bits f = remembers (tree bits f) f

-- ---- it is the same function

Parity : ℕ → Set
Parity n = ((n % 2 == 0 ≡ true) × (n / 2 * 2 ≡ n)) ⊎ ((n % 2 == 0 ≡ false) × (suc (n / 2 * 2) ≡ n))

parity : (n : ℕ) → Parity n
parity n with n % 2 | m%n<n n 1 | m≡m%n+[m/n]*n n 1
... | 0 | _ | e = inj₁ (refl , sym e)
... | 1 | _ | e = inj₂ (refl , sym e)
... | suc (suc _) | s≤s (s≤s ()) | _

look-gives : {A : Set} (bits : ℕ) (f : ℕ → A) (n : ℕ) {x : A}
  → look (tree bits f) n ≡ Some x → x ≡ f n
look-gives zero f zero refl = refl
look-gives (suc bits) f n e with parity n
... | inj₁ (even , n-is) rewrite even =
  trans (look-gives bits (λ n → f (n * 2)) (n / 2) e) (cong f n-is)
... | inj₂ (odd , n-is) rewrite odd =
  trans (look-gives bits (λ n → f (suc (n * 2))) (n / 2) e) (cong f n-is)

remembered-is : {A : Set} (bits : ℕ) (f : ℕ → A) (n : ℕ) → remembered bits f n ≡ f n
remembered-is bits f n with look (tree bits f) n in e
... | None = refl
... | Some x = look-gives bits f n e
