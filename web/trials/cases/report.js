"use strict";

// Comparisons, which are counted.

const { isDeepStrictEqual, inspect } = require("node:util");

const shown = (value) => inspect(value, { depth: 6, breakLength: Infinity }).slice(0, 400);

class Report {
  constructor() {
    this.counts = new Map();
    this.failed = 0;
  }

  /** Has what is compared from here on counted under a name. */
  begin(subject) {
    this.subject = subject;
    this.counts.set(subject, 0);
  }

  /** Compares what is there with what should be. */
  same(what, wanted, got) {
    this.counts.set(this.subject, this.counts.get(this.subject) + 1);
    if (isDeepStrictEqual(wanted, got)) return;
    this.failed++;
    if (this.failed <= 20) {
      console.log(`failed: ${this.subject}: ${what}: wanted ${shown(wanted)}, and there is `
        + shown(got));
    }
  }

  /** Compares the answers to questions, each with what it should be: `[question, answer]`. */
  cases(what, rows, answer) {
    for (const [question, wanted] of rows) {
      this.same(`${what} of ${shown(question)}`, wanted, answer(question));
    }
  }

  /** What an action is refused with: the text of its error, or undefined. */
  static refused(action) {
    try {
      action();
    } catch (error) {
      return error.message;
    }
    return undefined;
  }
}

module.exports = { Report };
