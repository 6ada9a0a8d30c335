{-# OPTIONS --safe --without-K #-}
-- Steps of a hart with machine mode, as the definitions have them: an interrupt, an instruction of
-- the hart, one of machine mode, or an exception that is raised. Each comes with the proof that the
-- definitions say so.
module Reading.MachineSteps where

open import Prelude
open import Data.Sum.Base using (inj₁; inj₂)
open import Relation.Binary.PropositionalEquality using (subst)
open import Relation.Nullary using (Dec; yes; no)
open import rrs-instruction.Declared
open import rrs-instruction.Encodings
open import rrs-instruction.Table using (Row; table; action·; Decodes)
open import rrs-memory.AccessLists using (Access)
open import rrs-lib.Declared using (InstructionException)
open import rrs-lib.Machine using (State; pc·)
open import rrs-lib.Steps
open import machine-words.Declared using
  ( SystemRow; Csrrw; Csrrs; Csrrc; Csrrwi; Csrrsi; Csrrci; Mret; Wfi; FenceI
  ; AtomicRow; LrW; ScW; AmoSwap; AmoAdd; AmoXor; AmoAnd; AmoOr; AmoMin; AmoMax; AmoMinu; AmoMaxu
  ; HartProfile; atomics·; ShortForm; Sw; Swsp; LayerInstruction; System; Atomic; row·; fields·
  ; Addi4spn; Lw; Addi; Jal; Li; Addi16sp; Lui; Srli; Srai; Andi; Sub; Xor; Or; And; J; Beqz; Bnez
  ; Slli; Lwsp; Jr; Mv; Ebreak; Jalr; Add )
open import machine-words.Forms using (form-table; row·; IsShort)
open import machine-words.SystemInstructions
open import machine-words.AtomicInstructions
open import machine-mode.Declared using
  (Inputs; MachineAnswer; Retired; Raised; Interrupted; Interrupt; AccessKind; Fetch; Load; Store)
open import machine-mode.Traps using
  ( interrupt-due; exception-of; IsKind; IsStore; RowStores; LayerStores; stores; atomic-stores
  ; layer-stores )
open import machine-mode.MachineSteps hiding (ends)
open import hart.Declared using (Encoding; Short; Long)
open import hart.Halves using (StandsFor; IsNoRow; IsLayers; ShortStandsFor; form·; operands·)
open import hart.Harts using (Hart; HartStep)
open import hart.Profiles using (state·)
open import laws.OneRow using (is-one-row-at-most)
open import Reading.Decoding
open import Reading.Compressed
open import Reading.Layers
open import Reading.HartSteps

-- ---- whether an instruction is a store

storing-forms : (form : ShortForm) → stores (table (form-table form .row·) .action·) ≡ true
  → (form ≡ Sw) ⊎ (form ≡ Swsp)
storing-forms = λ
  { Sw e → inj₁ refl ; Swsp e → inj₂ refl ; Addi4spn () ; Lw () ; Addi () ; Jal () ; Li ()
  ; Addi16sp () ; Lui () ; Srli () ; Srai () ; Andi () ; Sub () ; Xor () ; Or () ; And () ; J ()
  ; Beqz () ; Bnez () ; Slli () ; Lwsp () ; Jr () ; Mv () ; Ebreak () ; Jalr () ; Add () }

short-stores? : (p : HartProfile) (h : ℕ) → Dec (IsStore p (Short h))
short-stores? p h with has-operands? h Sw
... | yes (a , b , x , is) = yes (RowStores _ _ (proj₂ (proj₂ (stands (Sw , _ , is)))) refl)
... | no not-sw with has-operands? h Swsp
...   | yes (a , b , x , is) = yes (RowStores _ _ (proj₂ (proj₂ (stands (Swsp , _ , is)))) refl)
...   | no not-swsp = no λ
  { (RowStores row f s e) → none s (storing-forms (s .form·)
      (subst (λ r → stores (table r .action·) ≡ true) (ShortStandsFor.row-is· s) e))
  ; (LayerStores i no-row () e) }
  where
  found : {row : Row} {f : Fields} (s : ShortStandsFor h row f) → HasOperands h (s .form·)
  found s = _ , _ , _ , ShortStandsFor.is· s
  none : {row : Row} {f : Fields} (s : ShortStandsFor h row f)
    → (s .form· ≡ Sw) ⊎ (s .form· ≡ Swsp) → ⊥
  none s (inj₁ e) = not-sw (subst (HasOperands h) e (found s))
  none s (inj₂ e) = not-swsp (subst (HasOperands h) e (found s))

storing-rows : List AtomicRow
storing-rows = ScW ∷ AmoSwap ∷ AmoAdd ∷ AmoXor ∷ AmoAnd ∷ AmoOr ∷ AmoMin ∷ AmoMax ∷ AmoMinu
  ∷ AmoMaxu ∷ []

-- each that stores is among them
storing : (row : AtomicRow) → atomic-stores row ≡ true
  → Σ ℕ λ place → slice-get storing-rows place ≡ Some row
storing = λ { LrW () ; ScW e → 0 , refl ; AmoSwap e → 1 , refl ; AmoAdd e → 2 , refl
  ; AmoXor e → 3 , refl ; AmoAnd e → 4 , refl ; AmoOr e → 5 , refl ; AmoMin e → 6 , refl
  ; AmoMax e → 7 , refl ; AmoMinu e → 8 , refl ; AmoMaxu e → 9 , refl }

find-storing : (w : ℕ) (rows : List AtomicRow) → Each (λ row → atomic-stores row ≡ true) rows
  → (Σ AtomicRow λ row → IsAtomic w row (r-fields w) × (atomic-stores row ≡ true))
    ⊎ Each (λ row → ¬ IsAtomic w row (r-fields w)) rows
find-storing w [] [] = inj₂ []
find-storing w (row ∷ rows) (e ∷ es) with is-atomic? w row
... | yes is = inj₁ (row , is , e)
... | no n with find-storing w rows es
...   | inj₁ found = inj₁ found
...   | inj₂ ns = inj₂ (n ∷ ns)

-- an instruction of a layer that the profile has, and that stores
StoringLayer : HartProfile → ℕ → Set
StoringLayer p w = Σ LayerInstruction λ i → IsLayers p (Long w) i × (layer-stores i ≡ true)

storing-layer? : (p : HartProfile) (w : ℕ) → Dec (StoringLayer p w)
storing-layer? p w with test (p .atomics·)
... | no n = no λ { (System i , is , ()) ; (Atomic i , (has , is) , e) → n has }
... | yes has with find-storing w storing-rows (each-passes atomic-stores storing-rows refl)
...   | inj₁ (row , is , e) =
  yes (Atomic (record { row· = row ; fields· = r-fields w }) , (has , is) , e)
...   | inj₂ ns = no λ
  { (System i , is , ())
  ; (Atomic i , (has , is) , e) → each-there ns (storing (i .row·) e)
      (subst (IsAtomic w (i .row·)) (only-r-fields is) is) }

long-stores? : (p : HartProfile) (w : ℕ) → Dec (IsStore p (Long w))
long-stores? p w with decode w
... | inj₁ (row , f , d) with test (stores (table row .action·))
...   | yes e = yes (RowStores row f d e)
...   | no n = no λ
  { (RowStores row' f' d' e) → n (subst (λ r → stores (table r .action·) ≡ true)
      (proj₁ (is-one-row-at-most w row' row f' f d' d)) e)
  ; (LayerStores i no-row is e) → no-row row f d }
long-stores? p w | inj₂ no-row with storing-layer? p w
...   | yes (i , is , e) = yes (LayerStores i no-row is e)
...   | no n = no λ
  { (RowStores row f d e) → no-row row f d ; (LayerStores i _ is e) → n (i , is , e) }

-- what accesses memory
kind-of : (p : HartProfile) (o : Result Encoding InstructionException) → Σ AccessKind (IsKind p o)
kind-of p (Err e) = Fetch , refl
kind-of p (Ok (Short h)) with short-stores? p h
... | yes is = Store , is
... | no n = Load , n
kind-of p (Ok (Long w)) with long-stores? p w
... | yes is = Store , is
... | no n = Load , n

-- ---- whether an instruction is one of machine mode

own-rows : List SystemRow
own-rows = Csrrw ∷ Csrrs ∷ Csrrc ∷ Csrrwi ∷ Csrrsi ∷ Csrrci ∷ Mret ∷ Wfi ∷ []

owned : (row : SystemRow) → is-own row ≡ true → Σ ℕ λ place → slice-get own-rows place ≡ Some row
owned = λ { FenceI () ; Csrrw e → 0 , refl ; Csrrs e → 1 , refl ; Csrrc e → 2 , refl
  ; Csrrwi e → 3 , refl ; Csrrsi e → 4 , refl ; Csrrci e → 5 , refl ; Mret e → 6 , refl
  ; Wfi e → 7 , refl }

find-own : (w : ℕ) (rows : List SystemRow) → Each (λ row → is-own row ≡ true) rows
  → (Σ SystemRow λ row → IsSystem w row (i-fields w) × (is-own row ≡ true))
    ⊎ Each (λ row → ¬ IsSystem w row (i-fields w)) rows
find-own w [] [] = inj₂ []
find-own w (row ∷ rows) (e ∷ es) with is-system? w row
... | yes is = inj₁ (row , is , e)
... | no n with find-own w rows es
...   | inj₁ found = inj₁ found
...   | inj₂ ns = inj₂ (n ∷ ns)

own? : (x : Encoding) → (Σ SystemRow λ row → Σ IType λ f → IsOwn x row f)
  ⊎ ((row : SystemRow) (f : IType) → ¬ IsOwn x row f)
own? (Short h) = inj₂ λ row f ()
own? (Long w) with decode w
... | inj₁ (row , f , d) = inj₂ λ { row' f' (illegal , _) → illegal row f d }
... | inj₂ illegal with find-own w own-rows (each-passes is-own own-rows refl)
...   | inj₁ (row , is , e) = inj₁ (row , i-fields w , illegal , is , e)
...   | inj₂ ns = inj₂ λ { row f (_ , is , e) → each-there ns (owned row e)
                            (subst (IsSystem w row) (only-i-fields is) is) }

-- ---- one step

record MachineStepped (i : Inputs) (s : MachineState) : Set where
  constructor stepped
  field
    after : MachineState
    answer : MachineAnswer
    accesses : List Access
    is-step : MachineStep i s after answer
    are-its : AccessesOfMachineStep i s accesses

-- an instruction of machine mode is about to be executed, or none is
AtOwn : MachineState → Set
AtOwn s = Σ Encoding λ x → Σ SystemRow λ row → Σ IType λ f → (fetched-at s ≡ Ok x) × IsOwn x row f

at-own? : (s : MachineState) → AtOwn s ⊎ IsNoSystem s
at-own? s = by (fetched-at s) refl
  where
  ok-is-one : {x y : Encoding} {o : Result Encoding InstructionException}
    → o ≡ Ok x → o ≡ Ok y → x ≡ y
  ok-is-one refl refl = refl
  err-is-not-ok : {x : Encoding} {e : InstructionException}
    {o : Result Encoding InstructionException} → o ≡ Err e → ¬ o ≡ Ok x
  err-is-not-ok refl ()
  by : (o : Result Encoding InstructionException) → fetched-at s ≡ o → AtOwn s ⊎ IsNoSystem s
  by (Err e) fetched = inj₂ λ x row f is _ → err-is-not-ok fetched is
  by (Ok x) fetched with own? x
  ... | inj₁ (row , f , own) = inj₁ (x , row , f , fetched , own)
  ... | inj₂ none = inj₂ λ y row f is own →
    none row f (subst (λ z → IsOwn z row f) (ok-is-one is fetched) own)

instruction-step : (i : Inputs) (s : MachineState)
  → Σ MachineState λ t → Σ MachineAnswer λ answer → InstructionStep i s t answer
instruction-step i s with hart-step (layers-of s) (hart-in s)
... | hart-stepped u (Ok tt) _ is _ = by (may-lie (layers-of s) (u .state· .pc·)) refl
  where
  by : (b : Bool) → may-lie (layers-of s) (u .state· .pc·) ≡ b
    → Σ MachineState λ t → Σ MachineAnswer λ answer → InstructionStep i s t answer
  by true e = _ , _ , Retires u is e refl refl
  by false e = _ , _ , Strays u is e refl refl
... | hart-stepped u (Err e) _ is _ with at-own? s
...   | inj₁ (x , row , f , fetched , own) = _ , _ , Executes x row f fetched own refl
...   | inj₂ none with kind-of (layers-of s) (fetched-at s)
...     | kind , its = _ , _ , Faults u e kind is none its refl refl

machine-step : (i : Inputs) (s : MachineState) → MachineStepped i s
machine-step i s = by (interrupt-due (s .csrs·) i) refl
  where
  by : (o : Option Interrupt) → interrupt-due (s .csrs·) i ≡ o → MachineStepped i s
  by (Some x) e = stepped _ _ [] (Interrupts x e refl refl) (OfInterrupt x e refl)
  by None e with instruction-step i s
  ... | t , answer , is = stepped t answer _ (Proceeds e is)
    (OfInstruction e (HartStepped.are-its (hart-step (layers-of s) (hart-in s))))
