{-# OPTIONS --safe --without-K #-}
-- Steps of a hart with a profile, as the definitions have them: with the layers of the profile,
-- loads and stores by bytes, and compressed code. Each comes with the proof that the definitions
-- say so.
module Reading.HartSteps where

open import Prelude
open import Data.Sum.Base using (inj₁; inj₂)
open import Relation.Binary.PropositionalEquality using (sym; trans; cong; subst)
open import Relation.Nullary using (Dec; yes; no)
open import rrs-instruction.Declared
open import rrs-instruction.Encodings
open import rrs-instruction.Table
open import rrs-memory.Bytes using (little-endian; all-writable)
open import rrs-memory.AccessLists using (Access)
open import rrs-lib.Declared using (InstructionException; AlignmentFault)
open import rrs-lib.Machine
open import rrs-lib.Steps using (StepAnswer; next-word; cleared; answered)
open import machine-words.Declared using
  ( HartProfile; fence-i·; atomics·; misaligned·; compressed·; SystemRow; FenceI
  ; Csrrw; Csrrs; Csrrc; Csrrwi; Csrrsi; Csrrci; Mret; Wfi; LayerInstruction; System; Atomic )
open import hart.Declared using (Encoding; Short; Long)
open import hart.Anywhere using (anywhere-by)
open import hart.Atomics using (AtomicOutcome; after·; reservation·; answer·)
open import hart.Halves
open import hart.Harts
open import hart.Profiles using (state·; reserved·)
open import laws.OneRow using (is-one-row-at-most)
open import Reading.Decoding
open import Reading.Compressed
open import Reading.Layers
open import Reading.Steps using (format-by; format-agrees; outcome-of; there-is; stepped; step)

-- ---- loads and stores that the kit refuses, since they are misaligned

Refused : Action → Fields → State → Set
Refused action f s = Σ ℕ λ a → outcome-by action f s ≡ Some (outcome s (Err (AlignmentFault a)))

-- what is refused, or that nothing is
IsRefused : State → Option Outcome → Set
IsRefused s o = Dec (Σ ℕ λ a → o ≡ Some (outcome s (Err (AlignmentFault a))))

branch-is-not : (taken : Bool) (imm : ℤ) (s : State)
  → IsRefused s (Some (branch-outcome taken imm s))
branch-is-not true imm s = no λ { (a , ()) }
branch-is-not false imm s = no λ { (a , ()) }

load-refused? : (n : ℕ) (extended : ℕ → ℤ) (rd address : ℕ) (s : State)
  → IsRefused s (Some (load-outcome n extended rd address s))
load-refused? n extended rd address s with address % n == 0
... | false = yes (address , refl)
... | true with little-endian (s .bytes·) address n
...   | None = no λ { (a , ()) }
...   | Some value = no λ { (a , ()) }

store-refused? : (n value address : ℕ) (s : State)
  → IsRefused s (Some (store-outcome n value address s))
store-refused? n value address s with address % n == 0
... | false = yes (address , refl)
... | true with all-writable (s .writable·) address n
...   | true = no λ { (a , ()) }
...   | false = no λ { (a , ()) }

refused? : (action : Action) (f : Fields) (s : State) → format-of f ≡ format-by action
  → IsRefused s (outcome-by action f s)
refused? (OnRegisters op) (R f) s e = no λ { (a , ()) }
refused? (OnImmediate op) (I f) s e = no λ { (a , ()) }
refused? (OnShamt op) (IShamt f) s e = no λ { (a , ()) }
refused? LoadUpper (U f) s e = no λ { (a , ()) }
refused? AddUpperToPc (U f) s e = no λ { (a , ()) }
refused? (BranchIf test) (B f) s e =
  branch-is-not (test (reg s (f .rs1·)) (reg s (f .rs2·))) (f .imm·) s
refused? (BranchUnless test) (B f) s e =
  branch-is-not (not (test (reg s (f .rs1·)) (reg s (f .rs2·)))) (f .imm·) s
refused? (Load n extended) (I f) s e = load-refused? n extended (f .rd·) _ s
refused? (Store n) (S f) s e = store-refused? n _ _ s
refused? JumpAndLink (J f) s e = no λ { (a , ()) }
refused? JumpAndLinkRegister (I f) s e = no λ { (a , ()) }
refused? NoEffect (I f) s e = no λ { (a , ()) }
refused? CallEnvironment (I f) s e = no λ { (a , ()) }
refused? Break (I f) s e = no λ { (a , ()) }

none-is-no-some : {A : Set} {x : A} {o : Option A} → o ≡ None → ¬ o ≡ Some x
none-is-no-some refl ()

false-is-not-true : {b : Bool} → b ≡ false → ¬ b ≡ true
false-is-not-true refl ()

-- whether the profile carries it out
CarriedOut : HartProfile → Row → Fields → State → Set
CarriedOut p row f s = Σ ℕ λ a → Σ Outcome λ o → IsCarriedOut p row f s a o

carried-out? : (p : HartProfile) (row : Row) (f : Fields) (s : State)
  → format-of f ≡ table row .format· → CarriedOut p row f s ⊎ IsNotCarriedOut p row f s
carried-out? p row f s e with test (p .misaligned·)
... | no n = inj₂ λ a o c → n (IsCarriedOut.allowed· c)
... | yes allowed with refused? (table row .action·) f s (trans e (format-agrees row))
...   | no n = inj₂ λ a o c → n (a , IsCarriedOut.refused· c)
...   | yes (a , refused) = by (anywhere-by (table row .action·) f s) refl
  where
  by : (o : Option Outcome) → anywhere-by (table row .action·) f s ≡ o
    → CarriedOut p row f s ⊎ IsNotCarriedOut p row f s
  by None none = inj₂ λ a o c → none-is-no-some none (IsCarriedOut.carried· c)
  by (Some o) carried =
    inj₁ (a , o , record { allowed· = allowed ; refused· = refused ; carried· = carried })

-- ---- a row of n bytes

record RowStepped (p : HartProfile) (n : ℕ) (row : Row) (f : Fields) (s : State) : Set where
  constructor row-stepped
  field
    after : State
    answer : StepAnswer
    accesses : List Access
    is-step : RowStep p n row f s after answer
    are-its : AccessesOfRowStep p row f s accesses

row-step : (p : HartProfile) (n : ℕ) (row : Row) (f : Fields) (s : State)
  → format-of f ≡ table row .format· → RowStepped p n row f s
row-step p n row f s e with carried-out? p row f s e
... | inj₁ (a , o , c) = row-stepped _ _ _ (AsBytes a o c refl refl) (OfBytes a o c refl)
... | inj₂ none with there-is (execute row f s)
        (outcome-of (table row .action·) f s (trans e (format-agrees row)))
...   | o , x = row-stepped _ _ _ (AsRow none (record
  { u· = o .after· ; a· = o .answer· ; executes· = x ; after· = refl ; answers· = refl }))
  (OfRow none refl)

-- ---- encodings

decode-encoding : (x : Encoding) → (Σ Row λ row → Σ Fields λ f → StandsFor x row f) ⊎ IsNoRow x
decode-encoding (Short h) = decode-short h
decode-encoding (Long w) = decode w

format-of-encoding : (x : Encoding) {row : Row} {f : Fields} → StandsFor x row f
  → format-of f ≡ table row .format·
format-of-encoding (Short h) s = format-of-short s
format-of-encoding (Long w) d = d .format·

layer-of : (p : HartProfile) (x : Encoding)
  → (Σ LayerInstruction λ i → IsLayers p x i) ⊎ ((i : LayerInstruction) → ¬ IsLayers p x i)
layer-of p (Short h) = inj₂ λ i ()
layer-of p (Long w) = layer? p w

-- ---- one step

record HartStepped (p : HartProfile) (s : Hart) : Set where
  constructor hart-stepped
  field
    after : Hart
    answer : StepAnswer
    accesses : List Access
    is-step : HartStep p s after answer
    are-its : AccessesOfHart p s accesses

-- of a hart with compressed code
halves-step : (p : HartProfile) (s : Hart) → p .compressed· ≡ true → HartStepped p s
halves-step p s c = by (fetched (s .state· .bytes·) (s .state· .pc·)) refl
  where
  by : (o : Result Encoding InstructionException)
    → fetched (s .state· .bytes·) (s .state· .pc·) ≡ o → HartStepped p s
  by (Err x) e = hart-stepped (hart-with _ _) _ _ (OfHalves c (NotFetched x e refl))
    (HalvesAccesses c (FetchAlone (subst (IsNothing p) (sym e) tt) refl))
  by (Ok x) e with decode-encoding x
  ... | inj₁ (row , f , is) with row-step p (bytes-of x) row f (cleared (s .state·))
          (format-of-encoding x is)
  ...   | row-stepped t answer accesses is-step its =
    hart-stepped (hart-with t (s .reserved·)) answer _
    (OfHalves c (ARow x row f e is is-step refl))
    (HalvesAccesses c (FetchAndRow x row f accesses e is its refl))
  by (Ok x) e | inj₂ no-row with layer-of p x
  ...   | inj₁ (i , is) =
    hart-stepped (hart-with _ _) _ _ (OfHalves c (ALayer x i e no-row is refl))
    (HalvesAccesses c (FetchAndLayer x i e no-row is refl))
  ...   | inj₂ none = hart-stepped (hart-with _ _) _ _ (OfHalves c (NoInstruction x e illegal refl))
    (HalvesAccesses c (FetchAlone (subst (IsNothing p) (sym e) illegal) refl))
    where
    illegal : IsIllegalIn p x
    illegal = record { no-row· = no-row ; no-layer· = none }

some-is-one : {A : Set} {x y : A} {o : Option A} → o ≡ Some x → o ≡ Some y → x ≡ y
some-is-one refl refl = refl

-- of a hart without compressed code
words-step : (p : HartProfile) (s : Hart) → p .compressed· ≡ false → HartStepped p s
words-step p s c = by (next-word (s .state·)) refl
  where
  -- the kit's step, where no layer takes part
  kits : ((w : ℕ) (i : LayerInstruction) → ¬ LayerAt p (s .state·) w i)
    → ((w : ℕ) (row : Row) (f : Fields) (a : ℕ) (o : Outcome) → ¬ BytesAt p (s .state·) w row f a o)
    → HartStepped p s
  kits no-layer no-bytes with step (s .state·)
  ... | stepped t answer accesses is its = hart-stepped (hart-with t (s .reserved·)) answer accesses
    (OfKit all is refl) (KitAccesses all its)
    where
    all : IsKits p (s .state·)
    all = record { words· = c ; no-layer· = no-layer ; no-bytes· = no-bytes }

  by : (o : Option ℕ) → next-word (s .state·) ≡ o → HartStepped p s
  by None e = kits (λ w i at → none-is-no-some e (LayerAt.fetched· at))
    (λ w row f a o at → none-is-no-some e (BytesAt.fetched· at))
  by (Some w) e with decode w
  ... | inj₁ (row , f , d) with carried-out? p row f (cleared (s .state·)) (d .format·)
  ...   | inj₁ (a , o , is) =
    hart-stepped (hart-with _ _) _ _ (ByBytes w row f a o at refl)
    (ByteAccesses w row f a o at refl)
    where
    at : BytesAt p (s .state·) w row f a o
    at = record { words· = c ; allowed· = IsCarriedOut.allowed· is ; fetched· = e ; decoded· = d
                ; refused· = IsCarriedOut.refused· is ; carried· = IsCarriedOut.carried· is }
  ...   | inj₂ none = kits
    (λ w' i at → LayerAt.outside· at row f
      (subst (λ v → Decodes v row f) (some-is-one e (LayerAt.fetched· at)) d))
    λ w' row' f' a o at → same at (is-one-row-at-most w row' row f' f
      (subst (λ v → Decodes v row' f') (sym (some-is-one e (BytesAt.fetched· at)))
        (BytesAt.decoded· at)) d)
    where
    same : {w' : ℕ} {row' : Row} {f' : Fields} {a : ℕ} {o : Outcome}
      → BytesAt p (s .state·) w' row' f' a o → (row' ≡ row) × (f' ≡ f) → ⊥
    same at (refl , refl) = none _ _ (record
      { allowed· = BytesAt.allowed· at ; refused· = BytesAt.refused· at
      ; carried· = BytesAt.carried· at })
  by (Some w) e | inj₂ illegal with layer? p w
  ...   | inj₁ (i , is) =
    hart-stepped (hart-with _ _) _ _ (OfLayer w i at refl) (LayerAccesses w i at refl)
    where
    at : LayerAt p (s .state·) w i
    at = record { words· = c ; fetched· = e ; outside· = illegal ; is· = is }
  ...   | inj₂ none = kits
    (λ w' i at → none i
      (subst (λ v → IsOfProfile p v i) (sym (some-is-one e (LayerAt.fetched· at)))
        (LayerAt.is· at)))
    λ w' row f a o at → illegal row f
      (subst (λ v → Decodes v row f) (sym (some-is-one e (BytesAt.fetched· at)))
        (BytesAt.decoded· at))

hart-step : (p : HartProfile) (s : Hart) → HartStepped p s
hart-step p s = by (p .compressed·) refl
  where
  by : (b : Bool) → p .compressed· ≡ b → HartStepped p s
  by true c = halves-step p s c
  by false c = words-step p s c
