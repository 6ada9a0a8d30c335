"use strict";

// The actions of the page, and their keys. Nothing here knows the page.

/* Each action: what it is called, and its key. */
const ACTIONS = {
  step: { label: "Step: execute one instruction", key: "s" },
  stepOver: { label: "Over: execute a call with all of its steps", key: "S" },
  stepOut: { label: "Out: run to where the innermost call returns to", key: "U" },
  stepBack: { label: "Back: take the latest step back", key: "b" },
  run: { label: "Run to the end, a breakpoint, or Pause", key: "r" },
  pause: { label: "Pause", key: "p" },
  runToOutput: { label: "Run until something is printed", key: "R" },
  runBack: { label: "Run back to the start, or a breakpoint", key: "B" },
  runToLine: { label: "Run to the selected line", key: "t" },
  reset: { label: "Reset: the program as it was opened", key: "x" },
  breakpoint: { label: "Breakpoint at the selected line, on or off", key: "k" },
  program: { label: "Go to the program; arrow keys select a line", key: "g" },
  slower: { label: "Slower", key: "-" },
  faster: { label: "Faster", key: "+" },
  radix: { label: "Next radix of the registers", key: "n" },
  names: { label: "Registers by names or by numbers", key: "h" },
  change: { label: "Change a register or memory", key: "u" },
  details: { label: "Next of memory, calls, log, counts and bitmap", key: "i" },
  unit: { label: "Memory as words or bytes", key: "m" },
  around: { label: "Go to the choice of memory", key: "w" },
  address: { label: "Go to the address of memory", key: "a" },
  memoryUp: { label: "Lower addresses of memory", key: "[" },
  memoryDown: { label: "Higher addresses of memory", key: "]" },
  calls: { label: "Go to the choice of system calls", key: "f" },
  console: { label: "Go to the console's input", key: "c" },
  endInput: { label: "End the console's input", key: "z" },
  examples: { label: "Go to the examples", key: "y" },
  preset: { label: "Go to the choice of the machine's memory", key: "v" },
  edit: { label: "Edit the program", key: "e" },
  create: { label: "New: a program of its own, with nothing in it", key: "N" },
  kept: { label: "What is kept here: rename, delete, export, import", key: "K" },
  open: { label: "Open a file: assembly, words, raw bytes, or a lesson", key: "o" },
  save: { label: "Save the program as a file", key: "W" },
  link: { label: "A link that holds the program", key: "l" },
  lesson: { label: "Go to the exercises of the lesson", key: "j" },
  check: { label: "Check the program by the cases of the exercise", key: "C" },
  hint: { label: "Show a hint of the exercise", key: "H" },
  handIn: { label: "Hand in what was tried of the lesson, as a file or a link", key: "D" },
  closeLesson: { label: "Close the lesson", key: "q" },
  theme: { label: "Light or dark", key: "d" },
  keys: { label: "All keys, and the system calls", key: "?" },
};

/** The name of the action that a pressed key asks for, or undefined. */
function actionOf({ key, shiftKey, ctrlKey, altKey, metaKey }) {
  const isLetter = /^[a-z]$/i.test(key);
  // Ctrl and Alt together are AltGr, by which some keyboards write [ and ]
  if (metaKey || ctrlKey !== altKey || (ctrlKey && isLetter)) return undefined;
  // CapsLock changes what a letter is, and not which key was meant
  const meant = !isLetter ? key : shiftKey ? key.toUpperCase() : key.toLowerCase();
  return Object.keys(ACTIONS).find((name) => ACTIONS[name].key === meant);
}
