{-# OPTIONS --safe --without-K #-}
-- What the definitions take from the toolchain's libraries: each name with the same meaning here.
-- Before each line stands the library's own, with its module. `std` and `core` are the libraries of
-- Rattle; `Core` is that of mathematics beneath them, `lib` the logic's. The precedences are those
-- of the library's `infix` lines. `×` is `infixr 2` there ("the built-in ×", says Core.Logic), as
-- it is in Agda's standard library.
module Prelude where

open import Agda.Builtin.Nat using (div-helper; mod-helper) renaming (_<_ to below; _==_ to same)

-- Core.Nat: data ℕ, with zero and suc. Numbers are written as numerals.
open import Agda.Builtin.Nat public
  using (zero; suc) renaming (Nat to ℕ; _+_ to plus; _-_ to minus; _*_ to times)
-- lib.IntN: data ℤ: "`pos n` is n, and `negsuc n` is -(n + 1)"
open import Agda.Builtin.Int public using (pos; negsuc) renaming (Int to ℤ)
-- Core.Bool: data Bool
open import Agda.Builtin.Bool public using (Bool; true; false)
-- Core.List: data List; infixr 67 ◌∷◌
open import Agda.Builtin.List public using (List; []) renaming (_∷_ to infixr 67 _∷_)
-- Core.Path: a ≡ b, refl; infix 4 ◌≡◌. There it is a path, from which more follows than here: that
-- functions with equal values are equal.
open import Agda.Builtin.Equality public using (_≡_; refl)
-- the notation's own: Unit {0} with tt, (x : A) × B with its parts, ⊥, ¬ A
open import Agda.Builtin.Unit public using (⊤; tt)
open import Data.Product public using (Σ; _×_; _,_; proj₁; proj₂)
open import Data.Empty public using (⊥)
open import Relation.Nullary public using (¬_)
-- Core.Logic: data ◌⊎◌; infixr 1 ◌⊎◌
open import Data.Sum.Base public using (_⊎_)
-- Core.Logic: a ≢ b = ¬ (a ≡ b); infix 4 ◌≢◌
open import Relation.Binary.PropositionalEquality public using (_≢_)

open import Agda.Builtin.String using (primStringToList) renaming (String to Literal)
open import Agda.Builtin.Char using (Char; primCharToNat)

-- ---- truth values

-- Core.Bool: cond true x y = x, cond false x y = y
-- core.Bool: if b then x else y = cond b x y; infix 5 if◌then◌else◌
infix 5 if_then_else_
if_then_else_ : {A : Set} → Bool → A → A → A
if true then x else y = x
if false then x else y = y

-- Core.Bool: not true = false, not false = true
not : Bool → Bool
not true = false
not false = true

-- Core.Bool: true && b = b, false && b = false, true || b = true, false || b = b;
-- infixl 35 ◌&&◌, infixl 30 ◌||◌
infixl 35 _&&_
infixl 30 _||_
_&&_ : Bool → Bool → Bool
true && b = b
false && b = false

_||_ : Bool → Bool → Bool
true || b = true
false || b = b

-- core.Bool: IsTrue b = b ≡ true
IsTrue : Bool → Set
IsTrue b = b ≡ true

-- core.Bool: OnTrue b P = MatchBool b P ⊤, OnFalse b P = MatchBool b ⊤ P
OnTrue OnFalse : Bool → Set → Set
OnTrue true P = P
OnTrue false P = ⊤
OnFalse true P = ⊤
OnFalse false P = P

-- ---- numbers

-- Core.Nat: n + zero = n, n + suc m = suc (n + m): so Agda's sum with its operands exchanged.
-- infixl 65 ◌+◌ ◌-◌, infixl 70 ◌*◌ ◌/◌ ◌%◌, infixr 75 ◌^◌
infixl 65 _+_ _-_
infixl 70 _*_ _/_ _%_
infixr 75 _^_
_+_ : ℕ → ℕ → ℕ
n + m = plus m n

-- Core.Nat: n - zero = n, n - suc m = pred (n - m)
_-_ : ℕ → ℕ → ℕ
_-_ = minus

-- Core.Nat: mul_f zero n = zero, mul_f (suc m) n = mul_f m n + n, and n * k = mul_f k n
_*_ : ℕ → ℕ → ℕ
_*_ = times

-- Core.Nat: zero / m = zero, suc n / zero = zero, suc n / suc m = div_helper zero m (suc n) m
_/_ : ℕ → ℕ → ℕ
n / zero = 0
n / suc m = div-helper 0 m n m

-- Core.Nat: zero % m = zero, suc n % zero = suc n, suc n % suc m = mod_helper zero m (suc n) m
_%_ : ℕ → ℕ → ℕ
n % zero = n
n % suc m = mod-helper 0 m n m

-- Core.Nat: n ^ zero = one, n ^ suc m = n ^ m * n
_^_ : ℕ → ℕ → ℕ
n ^ zero = 1
n ^ suc m = n ^ m * n

-- lib.Dec: eqb, ltb, leb, by the native comparison; core.Bool: nat_eq, nat_lt, nat_le and ◌==◌;
-- infix 40 ◌==◌
infix 40 _==_
nat-eq nat-lt nat-le _==_ : ℕ → ℕ → Bool
nat-eq = same
nat-lt = below
nat-le m n = below m (suc n)
_==_ = same

-- Core.Nat: min zero m = zero, min (suc n) zero = zero, min (suc n) (suc m) = suc (min n m), and
-- max, the other
min max : ℕ → ℕ → ℕ
min m n = if nat-lt m n then m else n
max m n = if nat-lt m n then n else m

-- Core.Nat: n ≤ m by recursion on both, n < m = suc n ≤ m; infix 50 ◌≤◌ ◌<◌. Here each is what its
-- test says, as lib.Signed has it of ℤ, so that a proof is small: the test passed.
infix 50 _<_ _≤_ _≤ℤ_
record _≤_ (m n : ℕ) : Set where
  constructor le
  field holds : nat-le m n ≡ true

record _<_ (m n : ℕ) : Set where
  constructor lt
  field holds : nat-lt m n ≡ true

-- ---- whole numbers

-- lib.IntN: neg_ℤ (pos zero) = pos zero, neg_ℤ (pos (suc n)) = negsuc n,
-- neg_ℤ (negsuc n) = pos (suc n)
neg-ℤ : ℤ → ℤ
neg-ℤ (pos zero) = pos zero
neg-ℤ (pos (suc n)) = negsuc n
neg-ℤ (negsuc n) = pos (suc n)

-- lib.IntN: sub_ℕ a b = cond (ltb a b) (negsuc (b - suc a)) (pos (a - b))
sub-ℕ : ℕ → ℕ → ℤ
sub-ℕ a b = if nat-lt a b then negsuc (b - suc a) else pos (a - b)

-- lib.IntN, line by line; infixl 6 ◌+ℤ◌ ◌-ℤ◌, infixl 7 ◌*ℤ◌
infixl 6 _+ℤ_ _-ℤ_
infixl 7 _*ℤ_
_+ℤ_ : ℤ → ℤ → ℤ
pos a +ℤ pos b = pos (a + b)
pos a +ℤ negsuc b = sub-ℕ a (suc b)
negsuc a +ℤ pos b = sub-ℕ b (suc a)
negsuc a +ℤ negsuc b = negsuc (suc (a + b))

-- lib.IntN: m -ℤ k = m +ℤ neg_ℤ k
_-ℤ_ : ℤ → ℤ → ℤ
m -ℤ k = m +ℤ neg-ℤ k

-- lib.IntN, line by line
_*ℤ_ : ℤ → ℤ → ℤ
pos a *ℤ pos b = pos (a * b)
pos a *ℤ negsuc b = neg-ℤ (pos (a * suc b))
negsuc a *ℤ pos b = neg-ℤ (pos (suc a * b))
negsuc a *ℤ negsuc b = pos (suc a * suc b)

-- lib.Signed: lt_z and le_z, line by line; core.Int: int_lt and int_le
int-lt int-le : ℤ → ℤ → Bool
int-lt (pos a) (pos b) = nat-lt a b
int-lt (pos a) (negsuc b) = false
int-lt (negsuc a) (pos b) = true
int-lt (negsuc a) (negsuc b) = nat-lt b a
int-le (pos a) (pos b) = nat-le a b
int-le (pos a) (negsuc b) = false
int-le (negsuc a) (pos b) = true
int-le (negsuc a) (negsuc b) = nat-le b a

-- lib.Signed: record ◌≤ℤ◌ (a b : ℤ), with le : T (le_z a b); infix 50 ◌≤ℤ◌
record _≤ℤ_ (x y : ℤ) : Set where
  constructor leℤ
  field holds : int-le x y ≡ true

-- lib.IntN: nat_abs (pos n) = n, nat_abs (negsuc n) = suc n; core.Int: unsigned_abs
unsigned-abs : ℤ → ℕ
unsigned-abs (pos n) = n
unsigned-abs (negsuc n) = suc n

-- lib.Signed: quot_z, "rounded toward zero", line by line; core.Int: int_div
int-div : ℤ → ℤ → ℤ
int-div (pos a) (pos b) = pos (a / b)
int-div (pos a) (negsuc b) = neg-ℤ (pos (a / suc b))
int-div (negsuc a) (pos b) = neg-ℤ (pos (suc a / b))
int-div (negsuc a) (negsuc b) = pos (suc a / suc b)

-- core.Int, line by line: "the quotient whose remainder is not negative, and that remainder"
int-div-euclid int-rem-euclid : ℤ → ℤ → ℤ
int-div-euclid (pos a) (pos b) = pos (a / b)
int-div-euclid (pos a) (negsuc b) = neg-ℤ (pos (a / suc b))
int-div-euclid (negsuc a) (pos b) = negsuc (a / b)
int-div-euclid (negsuc a) (negsuc b) = pos (suc (a / suc b))
int-rem-euclid (pos a) d = pos (a % unsigned-abs d)
int-rem-euclid (negsuc a) d = pos (unsigned-abs d - 1 - a % unsigned-abs d)

-- ---- options and results

-- core: enum Option<T> { None, Some(T) }, enum Result<T, E> { Ok(T), Err(E) }
data Option (A : Set) : Set where
  None : Option A
  Some : A → Option A

data Result (A E : Set) : Set where
  Ok : A → Result A E
  Err : E → Result A E

-- core.Option: is_some None = false, is_some (Some x) = true
is-some : {A : Set} → Option A → Bool
is-some None = false
is-some (Some x) = true

-- core.Option: IsSome o = is_some o ≡ true
IsSome : {A : Set} → Option A → Set
IsSome o = is-some o ≡ true

-- core.Option: MatchOption None P Q = P, MatchOption (Some x) P Q = Q x,
-- IfSome o P = MatchOption o ⊤ P, IfNone o P = MatchOption o P (λ _. ⊤)
IfSome : {A : Set} → Option A → (A → Set) → Set
IfSome None P = ⊤
IfSome (Some x) P = P x

IfNone : {A : Set} → Option A → Set → Set
IfNone None P = P
IfNone (Some x) P = ⊤

-- core.Option, line by line
option-map : {A B : Set} → (A → B) → Option A → Option B
option-map f None = None
option-map f (Some x) = Some (f x)

option-and-then : {A B : Set} → (A → Option B) → Option A → Option B
option-and-then f None = None
option-and-then f (Some x) = f x

option-or : {A : Set} → Option A → Option A → Option A
option-or None p = p
option-or (Some x) p = Some x

option-map-or : {A B : Set} → (A → B) → Option A → B → B
option-map-or f None d = d
option-map-or f (Some x) d = f x

unwrap-or : {A : Set} → Option A → A → A
unwrap-or None d = d
unwrap-or (Some x) d = x

-- core.Result: is_ok (Ok x) = true, is_ok (Err e) = false
is-ok : {A E : Set} → Result A E → Bool
is-ok (Ok x) = true
is-ok (Err e) = false

-- core.Result: IfOk r P = MatchResult r P (λ _. ⊤)
IfOk : {A E : Set} → Result A E → (A → Set) → Set
IfOk (Ok x) P = P x
IfOk (Err e) P = ⊤

-- ---- lists

-- Core.List: [] ++ ys = ys, (x ∷ xs) ++ ys = x ∷ (xs ++ ys); infixl 65 ◌++◌
infixl 65 _++_
_++_ : {A : Set} → List A → List A → List A
[] ++ ys = ys
(x ∷ xs) ++ ys = x ∷ (xs ++ ys)

-- Core.List: map f [] = [], map f (x ∷ xs) = f x ∷ map f xs
map : {A B : Set} → (A → B) → List A → List B
map f [] = []
map f (x ∷ xs) = f x ∷ map f xs

-- lib.ListN, line by line
length : {A : Set} → List A → ℕ
length [] = zero
length (x ∷ xs) = suc (length xs)

take drop : {A : Set} → ℕ → List A → List A
take zero xs = []
take (suc n) [] = []
take (suc n) (x ∷ xs) = x ∷ take n xs
drop zero xs = xs
drop (suc n) [] = []
drop (suc n) (x ∷ xs) = drop n xs

replicate : {A : Set} → ℕ → A → List A
replicate zero a = []
replicate (suc n) a = a ∷ replicate n a

-- lib.ListN: get_or and set; core.List: slice_index_or and slice_set
slice-index-or : {A : Set} → List A → ℕ → A → A
slice-index-or [] n d = d
slice-index-or (x ∷ xs) zero d = x
slice-index-or (x ∷ xs) (suc n) d = slice-index-or xs n d

slice-set : {A : Set} → List A → ℕ → A → List A
slice-set (x ∷ xs) zero b = b ∷ xs
slice-set (x ∷ xs) (suc n) b = x ∷ slice-set xs n b
slice-set [] n b = []

-- core.List: slice_index xs i = get_or xs i 0
slice-index : List ℕ → ℕ → ℕ
slice-index xs i = slice-index-or xs i 0

-- core.List, line by line
slice-get : {A : Set} → List A → ℕ → Option A
slice-get [] i = None
slice-get (x ∷ xs) zero = Some x
slice-get (x ∷ xs) (suc i) = slice-get xs i

flat-map : {A B : Set} → (A → List B) → List A → List B
flat-map f [] = []
flat-map f (x ∷ xs) = f x ++ flat-map f xs

range-with-len : ℕ → ℕ → List ℕ
range-with-len a zero = []
range-with-len a (suc n) = a ∷ range-with-len (a + 1) n

-- core.List: prefix_len p (x ∷ xs) = cond (p x) (1 + prefix_len p xs) 0
prefix-len : {A : Set} → (A → Bool) → List A → ℕ
prefix-len p [] = 0
prefix-len p (x ∷ xs) = if p x then 1 + prefix-len p xs else 0

-- core.List: position_or_len p xs = prefix_len (λ x. not (p x)) xs
position-or-len : {A : Set} → (A → Bool) → List A → ℕ
position-or-len p xs = prefix-len (λ x → not (p x)) xs

-- core.List, line by line
before-first after-first : {A : Set} → (A → Bool) → List A → List A
before-first p xs = take (position-or-len p xs) xs
after-first p xs = drop (position-or-len p xs + 1) xs

-- core.List: onto_first and slice_split, line by line
onto-first : {A : Set} → A → List (List A) → List (List A)
onto-first x [] = (x ∷ []) ∷ []
onto-first x (part ∷ parts) = (x ∷ part) ∷ parts

slice-split : {A : Set} → (A → Bool) → List A → List (List A)
slice-split p [] = [] ∷ []
slice-split p (x ∷ xs) = if p x then [] ∷ slice-split p xs else onto-first x (slice-split p xs)

-- core.List: All P xs = (k : ℕ) (d : X) → k < length xs → P (slice_index_or xs k d)
All : {A : Set} → (A → Set) → List A → Set
All {A} P xs = (k : ℕ) (d : A) → k < length xs → P (slice-index-or xs k d)

-- core.List: Contains xs x = (k : ℕ) × (k < length xs) × (slice_index_or xs k x ≡ x)
Contains : {A : Set} → List A → A → Set
Contains xs x = Σ ℕ λ k → (k < length xs) × (slice-index-or xs k x ≡ x)

-- core.List: Any P xs = (k : ℕ) × (x : X) × (k < length xs) × (slice_index_or xs k x ≡ x) × P x
Any : {A : Set} → (A → Set) → List A → Set
Any {A} P xs = Σ ℕ λ k → Σ A λ x → (k < length xs) × (slice-index-or xs k x ≡ x) × P x

-- core.List: AllPairs R xs = (i j : ℕ) (d : X) → i < j → j < length xs
-- → R (slice_index_or xs i d) (slice_index_or xs j d)
AllPairs : {A : Set} → (A → A → Set) → List A → Set
AllPairs {A} R xs = (i j : ℕ) (d : A) → i < j → j < length xs
  → R (slice-index-or xs i d) (slice-index-or xs j d)

-- core.List.Sorted: IsStrictlyIncreasing xs = (k : ℕ) → k + 1 < length xs
-- → slice_index xs k < slice_index xs (k + 1)
IsStrictlyIncreasing : List ℕ → Set
IsStrictlyIncreasing xs = (k : ℕ) → k + 1 < length xs → slice-index xs k < slice-index xs (k + 1)

-- core.Int: a width by its bits; of numbers below 2 ^ bits, the counts of zeros and ones, what is
-- rotated, and the bytes, lowest or highest first
Width : Set
Width = ℕ

w8 w32 : Width
w8 = 8
w32 = 32

ones-of trailing-of leading-of : ℕ → ℕ → ℕ
ones-of zero n = 0
ones-of (suc k) n = n % 2 + ones-of k (n / 2)
trailing-of zero n = 0
trailing-of (suc k) n = if n % 2 == 0 then suc (trailing-of k (n / 2)) else 0
leading-of zero n = 0
leading-of (suc k) n = if nat-lt n (2 ^ k) then suc (leading-of k n) else 0

count-ones : ℕ → ℕ
count-ones = ones-of 64

leading-zeros trailing-zeros : Width → ℕ → ℕ
leading-zeros = leading-of
trailing-zeros = trailing-of

rotate-left rotate-right : Width → ℕ → ℕ → ℕ
rotate-left w n by =
  if by % w == 0 then n else n * 2 ^ (by % w) % 2 ^ w + n / 2 ^ (w - by % w)
rotate-right w n by =
  if by % w == 0 then n else n / 2 ^ (by % w) + n * 2 ^ (w - by % w) % 2 ^ w

-- the low bits in the other order, and the sums of the two bits at each of 64 places modulo 2
reversed-onto : ℕ → ℕ → ℕ → ℕ
reversed-onto zero n a = a
reversed-onto (suc k) n a = reversed-onto k (n / 2) (a * 2 + n % 2)

reverse-bits : Width → ℕ → ℕ
reverse-bits w n = reversed-onto w n 0

xor-of : ℕ → ℕ → ℕ → ℕ
xor-of zero a b = 0
xor-of (suc k) a b = (a % 2 + b % 2) % 2 + 2 * xor-of k (a / 2) (b / 2)

bit-xor : ℕ → ℕ → ℕ
bit-xor = xor-of 64

lowest-bytes : ℕ → ℕ → List ℕ
lowest-bytes zero n = []
lowest-bytes (suc k) n = n % 256 ∷ lowest-bytes k (n / 256)

to-le-bytes : Width → ℕ → List ℕ
to-le-bytes w = lowest-bytes (w / 8)

from-lowest : List ℕ → ℕ
from-lowest [] = 0
from-lowest (b ∷ bs) = b + 256 * from-lowest bs

from-highest : ℕ → List ℕ → ℕ
from-highest n [] = n
from-highest n (b ∷ bs) = from-highest (n * 256 + b) bs

from-le-bytes from-be-bytes : Width → List ℕ → ℕ
from-le-bytes w = from-lowest
from-be-bytes w = from-highest 0

-- lib.Pointwise, line by line, at nat_eq; core.Str: bytes_eq = pointwise nat_eq
bytes-eq : List ℕ → List ℕ → Bool
bytes-eq [] [] = true
bytes-eq [] (y ∷ ys) = false
bytes-eq (x ∷ xs) [] = false
bytes-eq (x ∷ xs) (y ∷ ys) = nat-eq x y && bytes-eq xs ys

-- ---- entries by their keys

-- core: enum Ordering { Less, Equal, Greater }
data Ordering : Set where
  Less Equal Greater : Ordering

-- core.Ordering: nat_cmp x y = cond (nat_lt x y) Less (cond (x == y) Equal Greater)
nat-cmp : ℕ → ℕ → Ordering
nat-cmp x y = if nat-lt x y then Less else (if x == y then Equal else Greater)

-- core.Ordering: is_eq; std.BTreeMap: is_at compare k = is_eq (compare k)
is-eq : Ordering → Bool
is-eq Less = false
is-eq Equal = true
is-eq Greater = false

is-at : {K : Set} → (K → Ordering) → K → Bool
is-at compare k = is-eq (compare k)

-- std.Map, line by line
keys-of : {K A : Set} → List (K × A) → List K
keys-of es = map proj₁ es

values-of : {K A : Set} → List (K × A) → List A
values-of es = map proj₂ es

lookup : {K A : Set} → (K → Bool) → List (K × A) → Option A
lookup test [] = None
lookup test (e ∷ es) = if test (proj₁ e) then Some (proj₂ e) else lookup test es

-- core.Ordering: match_ordering, line by line
match-ordering : {A : Set} → Ordering → A → A → A → A
match-ordering Less a b c = a
match-ordering Equal a b c = b
match-ordering Greater a b c = c

-- std.BTreeMap, line by line
insert-entry : {K A : Set} → (K → K → Ordering) → List (K × A) → K → A → List (K × A)
insert-entry cmp [] k v = (k , v) ∷ []
insert-entry cmp (e ∷ es) k v = match-ordering (cmp k (proj₁ e)) ((k , v) ∷ e ∷ es)
  ((proj₁ e , v) ∷ es) (e ∷ insert-entry cmp es k v)

-- ---- texts

-- lib.Chars: codes [] = nil, codes (c ∷ s) = code c ∷ codes s
codes : Literal → List ℕ
codes s = go (primStringToList s)
  where
  go : List Char → List ℕ
  go [] = []
  go (c ∷ cs) = primCharToNat c ∷ go cs

-- core.Fmt: "the ASCII digit for d: 48 is `0`, 55 + 10 is `A` and 87 + 10 is `a`"
digit-glyph : Bool → ℕ → ℕ
digit-glyph upper d = if nat-lt d 10 then 48 + d else (if upper then 55 + d else 87 + d)

-- core.Fmt: "the last k digits of n at most, followed by acc"
digits-onto : ℕ → ℕ → Bool → ℕ → List ℕ → List ℕ
digits-onto zero base upper n acc = acc
digits-onto (suc k) base upper n acc = if n / base == 0 then digit-glyph upper (n % base) ∷ acc
  else digits-onto k base upper (n / base) (digit-glyph upper (n % base) ∷ acc)

-- core.Fmt: "the digits of n in the base, for a number with at most 64 digits"
digits : ℕ → Bool → ℕ → List ℕ
digits base upper n = digits-onto 64 base upper n []

-- core.Fmt: "what `{}` writes for an unsigned integer", and "for a signed integer"
decimal : ℕ → List ℕ
decimal n = digits 10 false n

signed-decimal : ℤ → List ℕ
signed-decimal (pos n) = decimal n
signed-decimal (negsuc n) = 45 ∷ decimal (suc n)

-- ---- values of the code

-- std_alloc: struct Vec, of which vec_items, vec_len and vec_capacity are the parts. Here the
-- length is that of the items, as a Vec keeps it.
record Vec (A : Set) : Set where
  field
    items· : List A
    cap· : ℕ
open Vec public

vec-len vec-capacity : {A : Set} → Vec A → ℕ
vec-len v = length (v .items·)
vec-capacity v = v .cap·

-- std_alloc: struct String, an allocator beside its bytes
record String (A : Set) : Set where
  field bytes-of-string : List ℕ

string-bytes : {A : Set} → String A → List ℕ
string-bytes s = String.bytes-of-string s

-- std: struct Global, the allocator, struct AllocError, and io::Error: the definitions look at no
-- part of them
record Global : Set where
record AllocError : Set where
record IoError : Set where

-- denote.MutBor: record MutBor (X : Type 0), a `&mut`: its value now, and the name of what it
-- borrows. Where it points is no part here.
record MutBor (A : Set) : Set where
  field
    ghost-name· : ℕ
    now· : A
open MutBor public

-- std.Io.KnownBytes: "known bytes begin with bs, and lose them", "no known byte is left"
Consumes : Option (List ℕ) → Option (List ℕ) → List ℕ → Set
Consumes None new bs = ⊤
Consumes (Some xs) None bs = ⊥
Consumes (Some xs) (Some ys) bs = xs ≡ bs ++ ys

IsAtEnd : Option (List ℕ) → Set
IsAtEnd None = ⊤
IsAtEnd (Some xs) = xs ≡ []

-- base.Stored: data Gv, "the ghost values: a tree of numbers", and record Coded A, "a map into Gv,
-- and that it is one to one"
data Gv : Set where
  gnil : Gv
  gnum : ℕ → Gv
  gcons : Gv → Gv → Gv

record Coded (A : Set) : Set where
  field
    code : A → Gv
    inj : (x y : A) → code x ≡ code y → x ≡ y

-- base.Stored: coded_ℕ, coded_bool, coded_list and coded×; denote.Struct.Codes: code_by B c to from
-- back, "A is coded as B, where `from` undoes `to`"
private
  open import Relation.Binary.PropositionalEquality using (sym; trans; cong; cong₂)

  number-in : Gv → ℕ
  number-in (gnum n) = n
  number-in _ = 0

  first-in second-in : Gv → Gv
  first-in (gcons a b) = a
  first-in _ = gnil
  second-in (gcons a b) = b
  second-in _ = gnil

  bit : Bool → Gv
  bit true = gnum 1
  bit false = gnum 0

  bit-inj : (x y : Bool) → bit x ≡ bit y → x ≡ y
  bit-inj true true e = refl
  bit-inj true false ()
  bit-inj false true ()
  bit-inj false false e = refl

coded-ℕ : Coded ℕ
coded-ℕ = record { code = gnum ; inj = λ x y e → cong number-in e }

coded-bool : Coded Bool
coded-bool = record { code = bit ; inj = bit-inj }

coded-list : {A : Set} → Coded A → Coded (List A)
coded-list {A} c = record { code = code ; inj = inj }
  where
  code : List A → Gv
  code [] = gnil
  code (x ∷ xs) = gcons (Coded.code c x) (code xs)
  inj : (xs ys : List A) → code xs ≡ code ys → xs ≡ ys
  inj [] [] e = refl
  inj (x ∷ xs) (y ∷ ys) e =
    cong₂ _∷_ (Coded.inj c x y (cong first-in e)) (inj xs ys (cong second-in e))
  inj [] (y ∷ ys) ()
  inj (x ∷ xs) [] ()

coded× : {A B : Set} → Coded A → Coded B → Coded (A × B)
coded× c d = record
  { code = λ p → gcons (Coded.code c (proj₁ p)) (Coded.code d (proj₂ p))
  ; inj = λ p q e → cong₂ _,_ (Coded.inj c _ _ (cong first-in e))
      (Coded.inj d _ _ (cong second-in e)) }

code-by : {A : Set} (B : Set) → Coded B → (to : A → B) (from : B → A)
  → ((x : A) → from (to x) ≡ x) → Coded A
code-by B c to from back = record
  { code = λ x → Coded.code c (to x)
  ; inj = λ x y e → trans (sym (back x)) (trans (cong from (Coded.inj c _ _ e)) (back y)) }
