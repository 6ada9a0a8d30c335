{-# OPTIONS --without-K #-}
-- A program that answers questions by the definitions, line by line: those of the stored run, and
-- those by which the definitions are compared with other machines. It is not `--safe`: it declares
-- what reads the questions, and it takes functions with equal values to be equal, which the
-- notation of the definitions has and Agda does not.
module Answers where

open import Prelude
open import Agda.Builtin.IO using (IO)
open import Agda.Builtin.String
  using (primStringFromList; primStringToList) renaming (String to Literal)
open import Agda.Builtin.Char using (Char; primNatToChar)
open import Data.Sum.Base using (inj₁; inj₂)
open import Relation.Binary.PropositionalEquality using (cong)
open import rrs-instruction.Encodings using (Fields)
open import rrs-instruction.Table
open import rrs-memory.Declared using (MemAccessSize; Byte; HalfWord; Word)
open import rrs-memory.Bytes using (ByteMap; little-endian; width)
open import rrs-memory.AccessLists using (Access; Read; Write)
open import rrs-memory.Hexadecimal using (hexadecimal)
open import rrs-lib.Declared using
  ( InstructionException; IllegalInstruction; FetchError; LoadAccessFault; StoreAccessFault
  ; AlignmentFault; EnvironmentCall; Breakpoint )
open import rrs-lib.Machine
open import rrs-lib.Steps
open import machine-words.Declared using
  ( HartProfile; atomics·; misaligned·; fence-i·; compressed·; zba·; zbb·; zbs·; zbc·; zbkb·
  ; zicond·
  ; Mstatus; Mie; Mtvec; Mscratch; Mepc; Mcause; Mtval; Mip )
open import machine-mode.Declared using
  ( CsrFile; Inputs; MachineAnswer; Retired; Waiting; Raised; Interrupted
  ; external·; timer·; software·; time·; mstatus·; mie·; mtvec·; mscratch·; mepc·; mcause·; mtval· )
open import machine-mode.Csrs using (csr-value; reset-file)
open import machine-words.CsrNumbers using (machine-alone)
open import machine-mode.Traps using (exception-code; interrupt-code)
open import machine-mode.MachineSteps using (MachineState; machine; hart·; csrs·)
open import questions.Questions
open import questions.Numerals using (word-of)
open import Reading.Decoding
open import Reading.Steps
open import Reading.Remembering using (remembered; remembered-is)
open import Reading.MachineSteps
open import Reading.HartSteps using (hart-step; hart-stepped)
open import hart.Profiles using (Hart; hart-with; state·; reserved·)

-- ---- words of answers

word-text : ℕ → List ℕ
word-text w = codes "0x" ++ hexadecimal 8 w

joined : List ℕ → List (List ℕ) → List ℕ
joined c [] = codes "-"
joined c (x ∷ []) = x
joined c (x ∷ y ∷ xs) = x ++ (c ++ joined c (y ∷ xs))

name-and : Literal → ℕ → List ℕ
name-and n a = codes n ++ (codes " " ++ word-text a)

fault-text : InstructionException → List ℕ
fault-text (IllegalInstruction pc w) = name-and "IllegalInstruction" pc ++ codes " " ++ word-text w
fault-text (FetchError a) = name-and "FetchError" a
fault-text (LoadAccessFault a) = name-and "LoadAccessFault" a
fault-text (StoreAccessFault a) = name-and "StoreAccessFault" a
fault-text (AlignmentFault a) = name-and "AlignmentFault" a
fault-text (EnvironmentCall a) = name-and "EnvironmentCall" a
fault-text (Breakpoint a) = name-and "Breakpoint" a

answer-text : StepAnswer → List ℕ
answer-text (Ok _) = codes "Ok"
answer-text (Err e) = fault-text e

registers-text : ℕ → List ℕ → List (List ℕ)
registers-text i [] = []
registers-text i (x ∷ xs) = if x == 0 then registers-text (1 + i) xs
  else (codes "x" ++ decimal i ++ codes "=" ++ word-text x) ∷ registers-text (1 + i) xs

last-text : Option ℕ → List ℕ
last-text None = codes "-"
last-text (Some r) = codes "x" ++ decimal r

-- the words from an address on
memory-text : ByteMap → ℕ → ℕ → List (List ℕ)
memory-text bytes a zero = []
memory-text bytes a (suc n) with little-endian bytes a 4
... | None = codes "unmapped" ∷ []
... | Some w = word-text w ∷ memory-text bytes (a + 4) n

state-text : ℕ → State → List ℕ
state-text zero-entry s = codes "pc=" ++ word-text (s .pc·)
  ++ codes " last=" ++ last-text (s .last·)
  ++ codes " regs=" ++ joined (codes ",") (registers-text 0 (zero-entry ∷ s .registers·))

-- ---- states

-- A table of words, to be read at any place without a walk along a list. Its bits go from the
-- lowest on.
data Table : Set where
  empty : Table
  leaf : ℕ → Table
  node : Table → Table → Table

halves : List ℕ → List ℕ × List ℕ
halves [] = [] , []
halves (x ∷ xs) with halves xs
... | evens , odds = (x ∷ odds) , evens

tabled : ℕ → List ℕ → Table
tabled bits [] = empty
tabled zero (w ∷ ws) = leaf w
tabled (suc bits) (w ∷ ws) with halves (w ∷ ws)
... | evens , odds = node (tabled bits evens) (tabled bits odds)

at : Table → ℕ → ℕ
at empty i = 0
at (leaf w) i = w
at (node evens odds) i = if i % 2 == 0 then at evens (i / 2) else at odds (i / 2)

-- the words are one after another from a base on
bytes-in : Table → ℕ → ℕ → ByteMap
bytes-in words count base a =
  if nat-le base a && nat-lt a (base + 4 * count)
  then Some (at words ((a - base) / 4) / 256 ^ ((a - base) % 4) % 256) else None

state-from : List ℕ → ℕ → Option ℕ → ℕ → List ℕ → State
state-from registers pc last base words = record
  { registers· = drop 1 registers ; pc· = pc ; last· = last
  ; bytes· = bytes-in (tabled 24 words) (length words) base
  ; writable· = λ a → nat-le base a && nat-lt a (base + 4 * length words) }

-- ---- the stored questions

run-plainly : (n : ℕ) (s : State) → Ran n s
run-plainly = run (λ n s → s) (λ n s → refl)

answer : Asked → List ℕ
answer (AsksRow w) with decode w
... | inj₂ _ = codes "none"
... | inj₁ (row , _) = decimal (table row .number·) ++ codes " " ++ table row .name·
answer (AsksText pc w) with decode w
... | inj₂ _ = codes "none"
... | inj₁ (row , f , d) = proj₁ (text d pc)
answer (AsksSteps n pc last registers memory)
  with run-plainly n (state-from registers pc last 0 memory)
... | ran s answers _ _ _ _ = joined (codes ";") (map answer-text answers) ++ codes " "
  ++ state-text (slice-index registers 0) s
  ++ codes " mem=" ++ joined (codes ",") (memory-text (s .bytes·) 0 (length memory))

-- ---- questions of other machines

-- Functions with equal values are equal: the notation of the definitions proves it.
postulate extensionality : {A B : Set} {f g : A → B} → ((x : A) → f x ≡ g x) → f ≡ g

-- the map of bytes is written anew at each 64th step, for the addresses below 2 ^ 32
anew-if : Bool → State → State
anew-if true s = record s { bytes· = remembered 32 (s .bytes·) }
anew-if false s = s

anew-if-is : (now : Bool) (s : State) → anew-if now s ≡ s
anew-if-is true s =
  cong (λ b → record s { bytes· = b }) (extensionality (remembered-is 32 (s .bytes·)))
anew-if-is false s = refl

anew : ℕ → State → State
anew n s = anew-if (n % 64 == 0) s

anew-is : (n : ℕ) (s : State) → anew n s ≡ s
anew-is n s = anew-if-is (n % 64 == 0) s

size-text : MemAccessSize → List ℕ
size-text size = codes "/" ++ decimal (width size)

value-text : Option ℕ → List ℕ
value-text None = codes "refused"
value-text (Some x) = word-text x

access-text : Access → List ℕ
access-text (Read a size x) =
  codes "r" ++ word-text a ++ size-text size ++ codes "=" ++ value-text x
access-text (Write a size x granted) = codes "w" ++ word-text a ++ size-text size ++ codes "="
  ++ value-text (if granted then Some (x % 256 ^ width size) else None)

accesses-text : List Access → List ℕ
accesses-text accesses = joined (codes ",") (map access-text accesses)

-- a step from s to t: its pc, its answer, the register that it wrote with its value, its accesses
step-text : State → State → StepAnswer → List Access → List ℕ
step-text s t answer accesses = word-text (s .pc·) ++ codes " "
  ++ answer-text answer ++ codes " " ++ last-text (t .last·) ++ codes "="
  ++ word-text (option-map-or (reg t) (t .last·) 0) ++ codes " " ++ accesses-text accesses

-- the steps up to the first exception, and what they leave
traced : ℕ → State → List (List ℕ)
traced zero s = (codes "end " ++ state-text 0 s) ∷ []
traced (suc n) s with step s
... | stepped t (Ok tt) accesses _ _ = step-text s t (Ok tt) accesses ∷ traced n (anew n t)
... | stepped t (Err e) accesses _ _ =
  step-text s t (Err e) accesses ∷ (codes "end " ++ state-text 0 t) ∷ []

-- a hart's profile, as a sum: 1 for extension A, 2 for fence.i, 4 for misaligned accesses, 8 for
-- compressed code, and 32, 64, 128, 256, 512 and 1,024 for Zba, Zbb, Zbs, Zbc, Zbkb and Zicond, as
-- in rrs.h
profile-of : ℕ → HartProfile
profile-of n = record
  { atomics· = has 1 ; fence-i· = has 2 ; misaligned· = has 4 ; compressed· = has 8
  ; zba· = has 32 ; zbb· = has 64 ; zbs· = has 128 ; zbc· = has 256 ; zbkb· = has 512
  ; zicond· = has 1024 }
  where
  has : ℕ → Bool
  has bit = n / bit % 2 == 1

-- the steps of a hart likewise, and what they leave, with the memory as words from a base on
hart-traced : HartProfile → ℕ → ℕ → ℕ → Hart → List (List ℕ)
hart-traced p base count n s = by n s
  where
  end : Hart → List ℕ
  end s = codes "end " ++ state-text 0 (s .state·) ++ codes " mem="
    ++ joined (codes ",") (memory-text (s .state· .bytes·) base count)
  by : ℕ → Hart → List (List ℕ)
  by zero s = end s ∷ []
  by (suc n) s with hart-step p s
  ... | hart-stepped t (Ok tt) accesses _ _ = step-text (s .state·) (t .state·) (Ok tt) accesses
    ∷ by n (hart-with (anew n (t .state·)) (t .reserved·))
  ... | hart-stepped t (Err e) accesses _ _ = step-text (s .state·) (t .state·) (Err e) accesses
    ∷ end t ∷ []

exception-text : Option InstructionException → List ℕ
exception-text None = codes "limit"
exception-text (Some e) = fault-text e

-- A run to an exception or a limit, and what it leaves: the memory as words from a base on.
finished : ℕ → ℕ → ℕ → State → List (List ℕ)
finished base count limit s with run-until anew anew-is limit s
... | ran-until t steps e accesses _ _ = (codes "steps=" ++ decimal steps ++ codes " "
  ++ exception-text e ++ codes " accesses=" ++ decimal (length accesses) ++ codes " "
  ++ state-text 0 t ++ codes " mem="
  ++ joined (codes ",") (memory-text (t .bytes·) base count)) ∷ []

-- A machine with two devices, each a word: the lowest bit of that at 0x02000000 is the software
-- interrupt, and the timer's is pending where that at 0x02004004 is 0.
word-of-bytes : ByteMap → ℕ → ℕ
word-of-bytes bytes a = unwrap-or (little-endian bytes a 4) 0

inputs-of : MachineState → Inputs
inputs-of s = record { external· = false ; timer· = word-of-bytes (s .hart· .bytes·) 0x2004004 == 0
  ; software· = word-of-bytes (s .hart· .bytes·) 0x2000000 % 2 == 1 ; time· = 0 }

with-devices : MachineState → MachineState
with-devices s = record s { hart· = record (s .hart·)
  { bytes· = λ a → if is-device a then Some (device a) else s .hart· .bytes· a
  ; writable· = λ a → is-device a || s .hart· .writable· a } }
  where
  is-device : ℕ → Bool
  is-device a = a / 4 == 0x2000000 / 4 || a / 4 == 0x2004004 / 4
  device : ℕ → ℕ
  device a = if a / 4 == 0x2004004 / 4 then 255 else 0

machine-answer-text : MachineAnswer → List ℕ
machine-answer-text Retired = codes "Retired"
machine-answer-text Waiting = codes "Waiting"
machine-answer-text (Raised x) = codes "Raised " ++ decimal (exception-code x)
machine-answer-text (Interrupted x) = codes "Interrupted " ++ decimal (interrupt-code x)

-- the CSRs as they are read
csr-texts : Inputs → CsrFile → List (List ℕ)
csr-texts i f = map (λ c → word-text (csr-value c f i))
  (Mstatus ∷ Mie ∷ Mtvec ∷ Mscratch ∷ Mepc ∷ Mcause ∷ Mtval ∷ Mip ∷ [])

file-of : List ℕ → CsrFile
file-of (mstatus ∷ mie ∷ mtvec ∷ mscratch ∷ mepc ∷ mcause ∷ mtval ∷ []) = record (reset-file machine-alone)
  { mstatus· = mstatus ; mie· = mie ; mtvec· = mtvec ; mscratch· = mscratch ; mepc· = mepc
  ; mcause· = mcause ; mtval· = mtval }
file-of _ = reset-file machine-alone

machine-steps : ℕ → MachineState → List (List ℕ)
machine-steps zero s = []
machine-steps (suc n) s with machine-step (inputs-of s) s
... | stepped t answer accesses _ _ = (word-text (s .hart· .pc·) ++ codes " "
  ++ machine-answer-text answer ++ codes " " ++ accesses-text accesses ++ codes " csrs="
  ++ joined (codes ",") (csr-texts (inputs-of t) (t .csrs·)) ++ codes " "
  ++ state-text 0 (t .hart·)) ∷ machine-steps n t

-- a state with more words, from a base on
also : ℕ → List ℕ → State → State
also base words s = record s
  { bytes· = λ a → option-or (more a) (s .bytes· a)
  ; writable· = λ a → is-some (more a) || s .writable· a }
  where
  more : ByteMap
  more = bytes-in (tabled 24 words) (length words) base

-- `N pc=PC base=BASE regs=REGS mem=MEM`, where the memory begins at the base: the number, the
-- base, the number of words and the state
reads-state : {B : Set} → (ℕ → ℕ → ℕ → State → List (List ℕ) → Option B) → List (List ℕ) → Option B
reads-state follows = reads count-of λ n → reads (value-as (codes "pc") word-of) λ pc →
  reads (value-as (codes "base") word-of) λ base →
  reads (value-as (codes "regs") registers-of) λ registers →
  reads (value-as (codes "mem") memory-of) λ memory →
  follows n base (length memory) (state-from registers pc None base memory)

-- `base=BASE mem=MEM`: more memory
reads-more : {B : Set} → (State → List (List ℕ) → Option B) → State → List (List ℕ) → Option B
reads-more follows s = reads (value-as (codes "base") word-of) λ base →
  reads (value-as (codes "mem") memory-of) λ memory → follows (also base memory s)

-- `trace`, `far`, `run` or `machine`, and then a state; for `far` twice more memory, and for
-- `machine` the CSRs. `hart`, its profile, and then a state
asks-more : List (List ℕ) → Option (List (List ℕ))
asks-more [] = None
asks-more (w ∷ ws) =
  if bytes-eq w (codes "trace") then reads-state (λ n _ _ s → ends (traced n s)) ws
  else (if bytes-eq w (codes "far")
  then reads-state (λ n _ _ → reads-more (reads-more (λ s → ends (traced n s)))) ws
  else (if bytes-eq w (codes "run")
  then reads-state (λ n base count s → ends (finished base count n s)) ws
  else (if bytes-eq w (codes "hart")
  then reads count-of (λ profile → reads-state λ n base count s →
    ends (hart-traced (profile-of profile) base count n (hart-with s None))) ws
  else (if bytes-eq w (codes "machine")
  then reads-state (λ n _ _ s → reads (value-as (codes "csrs") memory-of)
    λ csrs → ends (machine-steps n (with-devices (machine s (file-of csrs))))) ws
  else None))))

-- ---- input and output

chars : List ℕ → List Char
chars [] = []
chars (x ∷ xs) = primNatToChar x ∷ chars xs

line-then : List ℕ → List Char → List Char
line-then [] rest = primNatToChar 10 ∷ rest
line-then (x ∷ xs) rest = primNatToChar x ∷ line-then xs rest

all-lines : (List ℕ → List (List ℕ)) → List (List ℕ) → List Char
all-lines answers [] = []
all-lines answers (l ∷ []) = []
all-lines answers (l ∷ ls) = lines-before (answers l)
  where
  lines-before : List (List ℕ) → List Char
  lines-before [] = all-lines answers ls
  lines-before (a ∷ as) = line-then a (lines-before as)

{-# FOREIGN GHC
import qualified Data.Text as T
import qualified Data.Text.IO as T
import qualified System.IO as S
answerLines :: (T.Text -> T.Text) -> IO ()
answerLines f = do
  S.hSetBuffering S.stdout (S.BlockBuffering (Just 65536))
  let go = do
        end <- S.isEOF
        if end then return () else do
          line <- T.getLine
          T.putStr (f line)
          S.hFlush S.stdout
          go
  go
#-}
postulate answer-lines : (Literal → Literal) → IO ⊤
{-# COMPILE GHC answer-lines = answerLines #-}

lines-of : List ℕ → List (List ℕ)
lines-of l with asks l
... | Some q = answer q ∷ []
... | None = unwrap-or (asks-more (words l)) (codes "error:" ∷ [])

main : IO ⊤
main = answer-lines λ l → primStringFromList (all-lines lines-of (codes l ∷ [] ∷ []))
