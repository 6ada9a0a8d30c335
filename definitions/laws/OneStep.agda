{-# OPTIONS --safe --without-K #-}
-- Each state has exactly one step, with one answer. That there is one is computed, with its proof,
-- by `step` of the reading. That there is no other follows from the four cases of a step: the
-- program counter, the bytes there, and the one row of the word decide the case.
module laws.OneStep where
open import Prelude
open import Data.Empty using (⊥-elim)
open import Relation.Binary.PropositionalEquality using (sym; trans; cong; subst)
open import rrs-instruction.Table
open import rrs-lib.Machine
open import rrs-lib.Steps
open import laws.OneRow using (is-one-row-at-most)
open import Reading.Steps using (step; stepped)

is-some-of : {A : Set} {x y : A} → Some x ≡ Some y → x ≡ y
is-some-of refl = refl
not-none : {A : Set} {x : A} {o : Option A} → o ≡ None → ¬ (o ≡ Some x)
not-none refl ()

-- two steps from one state leave the same, with the same answer
is-only-step : {s t : State} {answer : StepAnswer} → Step s t answer → IsOnlyStep s t answer
is-only-step (Misaligned n t a) _ _ (Misaligned _ t' a') = trans t' (sym t) , trans a' (sym a)
is-only-step (Misaligned n _ _) _ _ (Unmapped e _ _ _) = ⊥-elim (n e)
is-only-step (Misaligned n _ _) _ _ (Illegal _ e _ _ _ _) = ⊥-elim (n e)
is-only-step (Misaligned n _ _) _ _ (Legal _ _ _ _ _ e _ _ _ _ _) = ⊥-elim (n e)
is-only-step (Unmapped e _ _ _) _ _ (Misaligned n _ _) = ⊥-elim (n e)
is-only-step (Unmapped _ _ t a) _ _ (Unmapped _ _ t' a') = trans t' (sym t) , trans a' (sym a)
is-only-step (Unmapped _ l _ _) _ _ (Illegal _ _ l' _ _ _) = ⊥-elim (not-none l l')
is-only-step (Unmapped _ l _ _) _ _ (Legal _ _ _ _ _ _ l' _ _ _ _) = ⊥-elim (not-none l l')
is-only-step (Illegal _ e _ _ _ _) _ _ (Misaligned n _ _) = ⊥-elim (n e)
is-only-step (Illegal _ _ l _ _ _) _ _ (Unmapped _ l' _ _) = ⊥-elim (not-none l' l)
is-only-step (Illegal _ _ l _ t a) _ _ (Illegal _ _ l' _ t' a') with is-some-of (trans (sym l) l')
... | refl = trans t' (sym t) , trans a' (sym a)
is-only-step (Illegal _ _ l i _ _) _ _ (Legal _ row f _ _ _ l' d _ _ _) =
  ⊥-elim (i row f (subst (λ w → Decodes w row f) (is-some-of (trans (sym l') l)) d))
is-only-step (Legal _ _ _ _ _ e _ _ _ _ _) _ _ (Misaligned n _ _) = ⊥-elim (n e)
is-only-step (Legal _ _ _ _ _ _ l _ _ _ _) _ _ (Unmapped _ l' _ _) = ⊥-elim (not-none l' l)
is-only-step (Legal _ row f _ _ _ l d _ _ _) _ _ (Illegal _ _ l' i _ _) =
  ⊥-elim (i row f (subst (λ w → Decodes w row f) (is-some-of (trans (sym l) l')) d))
is-only-step (Legal w row f _ _ _ l d x t a) _ _
  (Legal _ row' f' _ _ _ l' d' x' t' a') with is-some-of (trans (sym l) l')
... | refl with is-one-row-at-most w row row' f f' d d'
... | refl , refl with is-some-of (trans (sym x) x')
... | refl = trans t' (sym t) , trans a' (sym a)

-- the law
one-step : (s : State) → Σ State λ t → Σ StepAnswer λ answer
  → Step s t answer × IsOnlyStep s t answer
one-step s with step s
... | stepped t answer _ is _ = t , answer , is , is-only-step is

-- A run of as many steps is the only one, too.
is-only-run : (s : State) (answers : List StepAnswer) (t : State) → Run s answers t
  → IsOnlyRun s answers t
is-only-run s [] t refl [] t' _ refl = refl , refl
is-only-run s (answer ∷ answers) t (m , is , rest) (answer' ∷ answers') t' as-many
  (m' , is' , rest') with is-only-step is m' answer' is'
... | refl , refl with is-only-run m answers t rest answers' t' (cong (_- 1) as-many) rest'
... | refl , refl = refl , refl
