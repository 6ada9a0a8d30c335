{-# OPTIONS --safe --without-K #-}
-- The laws of the definitions, proved from them alone, in the order in which they read best.
module laws.All where

-- each format's fields are one tuple: read-back
import laws.Fields
-- a word is at most one row with one tuple of fields: is-one-row-at-most
import laws.OneRow
-- each state has exactly one step, with one answer: one-step, is-only-step, is-only-run
import laws.OneStep
-- a step changes one register, the program counter, the last written register and four bytes at
-- most: changes-little, changes-four
import laws.SmallSteps
-- a program of seven words reaches its end after 6n + 2 steps with the sum of n words: sum-loop
import laws.SumLoop
-- two words have equal texts at one address exactly where they are one word, or two of fence:
-- one-or-fences, equal-texts
import laws.Texts
