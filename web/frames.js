"use strict";

// The calls that a program is in, found by the steps that it made. Nothing here knows the page.

const OPCODE = { STORE: 0x23, JALR: 0x67, JAL: 0x6f };

/* The registers that hold a return address: ra, and t0 as the alternate link register. */
const isLink = (register) => register === 1 || register === 5;

/* What a jump does by the convention of the unprivileged specification, in its part on JALR and the
 * return-address stack: "call", "return", or "" for neither. One that does both is a call. */
function kindOfJump(word) {
  const opcode = word & 0x7f;
  if (opcode !== OPCODE.JAL && opcode !== OPCODE.JALR) return "";
  if (isLink(word >>> 7 & 31)) return "call";
  return opcode === OPCODE.JALR && isLink(word >>> 15 & 31) ? "return" : "";
}

/* How many frames are kept at least: as many as the largest memory has room for, of 16
 * bytes each. A deeper recursion loses its outermost ones. */
const FRAMES_KEPT = 1 << 16;

/** A call that has not returned: the addresses `from` of the call, `entry` of the function, and `back`
 * where it returns to; `sp` where it was entered; and what the convention is told by: `saved` has what
 * registers were before the function wrote them. A frame is never changed but for `entry`, which the
 * next step tells, so states of before share it. */
class Frame {
  constructor(from, entry, back, sp, isPlain, returns, saved, caller) {
    Object.assign(this, { from, entry, back, sp, isPlain, returns, saved, caller });
    this.depth = caller === null ? 1 : caller.depth + 1;
  }

  /** The same with what a register was, unless that is known. */
  saving(register, value) {
    for (let at = this.saved; at !== null; at = at.next) if (at.register === register) return this;
    const { from, entry, back, sp, isPlain, returns, saved, caller } = this;
    return new Frame(
      from, entry, back, sp, isPlain, returns, { register, value, next: saved }, caller);
  }
}

/* A frame with as many callers as are kept at least. */
function shortenedFrames(top) {
  const frames = [];
  for (let at = top; at !== null && frames.length <= FRAMES_KEPT; at = at.caller) frames.push(at);
  return frames.reduceRight((caller, { from, entry, back, sp, isPlain, returns, saved }) =>
    new Frame(from, entry, back, sp, isPlain, returns, saved, caller), null);
}

/** The calls that have not returned, the innermost first, `most` at most. */
function framesOf(machine, most = Infinity) {
  const frames = [];
  let { top } = machine.convention.follow();
  for (; top !== null && frames.length < most; top = top.caller) {
    const { from, entry = machine.kit.pc, back, sp } = top;
    frames.push({ from, entry, back, sp });
  }
  return frames;
}

/** How many calls have not returned. */
const depthOf = (machine) => machine.convention.follow().top?.depth ?? 0;
