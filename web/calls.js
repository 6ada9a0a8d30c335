"use strict";

// The calls that an `ecall` makes, by the environments that programs are written for: of each a
// table. A call is served by a function over the machine. It answers what goes into a0, undefined
// for nothing, null where the program has to wait for input, or an end.

const exitWith = (register) => ({ kit }) => ({ reason: "exit", status: kit.x[register] & 0xff });
const exitWithZero = () => ({ reason: "exit", status: 0 });

/* The number of the user, and that of the group. */
const USER = 1000;

/* Prints what a function makes of a register's value. */
const printed = (register, textOf) => (machine) => {
  machine.print(new TextEncoder().encode(textOf(machine.kit.x[register])));
};

const decimal = (value) => String(value | 0);
const upperHex = (value) => `0x${hexOf(value).toUpperCase()}`;
const binary = (value) => value.toString(2).padStart(32, "0");

/* Prints the lowest byte of a register. */
const printByte = (register) => (machine) => {
  machine.print(Uint8Array.of(machine.kit.x[register] & 0xff));
};

/* Prints the bytes from an address on, up to the first that is 0. */
const printString = (register) => (machine) => {
  const address = machine.kit.x[register];
  const mapped = machine.bytesFrom(address);
  const length = mapped.indexOf(0);
  const why = `no byte of memory from ${hex(address)} on is 0`;
  if (length < 0) return { reason: "refused", why };
  return machine.print(mapped.subarray(0, length));
};

/* Gives the program bytes behind those that it has, up to the end of memory. */
const moreMemory = (register) => (machine) => {
  const { kit, heap } = machine;
  const bytes = kit.x[register] | 0;
  const next = heap + 4 * Math.ceil(bytes / 4);
  if (bytes < 0 || next > kit.base + kit.size) {
    return { reason: "refused", why: `there is no room for ${numbered(bytes)} bytes more` };
  }
  machine.heap = next;
  return heap;
};

const NO_INPUT = { reason: "refused", why: "the input has ended" };

/* Reads a line with a decimal number. A line that is none is dropped. */
function readNumber({ terminal }) {
  if (terminal.isEmpty) return null;
  const line = new TextDecoder().decode(terminal.takeLine()).trim();
  if (line === "" && terminal.isEmptyForGood) return NO_INPUT;
  const value = /^[+-]?[0-9]{1,10}$/.test(line) ? Number(line) : NaN;
  if (value >= -(2 ** 31) && value < 2 ** 31) return value >>> 0;
  return { reason: "refused", why: `"${shortened(line, 20)}" is no number from -2147483648 to `
    + "2147483647. The line is dropped: another can be typed" };
}

/* Reads a byte. */
function readByte({ terminal }) {
  if (terminal.isEmpty) return null;
  return terminal.isEmptyForGood ? NO_INPUT : terminal.takeBytes(1)[0];
}

/* Reads a line to an address, a0, of which a1 - 1 bytes at most are stored, and a 0 behind them. */
function readString(machine, extra) {
  const { kit, terminal } = machine;
  const [address, room] = [kit.x[REGISTER.A0], kit.x[REGISTER.A1] | 0];
  if (room < 1) return undefined;
  if (room > 1 && terminal.isEmpty) return null;
  if (machine.countMapped(address, room) < room) {
    return { reason: "refused", why: `memory does not have ${numbered(room)} bytes from `
      + `${hex(address)} on` };
  }
  const line = room > 1 ? terminal.takeLine().slice(0, room - 1) : [];
  machine.storeBytes(address, [...line, 0], extra);
  return undefined;
}

/* Of each environment: what it is called, the register that has the number of a call, and its
 * calls, with what each does for the program. Linux's are those of `rrs exec` that the page
 * serves. */
const ENVIRONMENTS = {
  linux: {
    name: "Linux", number: REGISTER.A7, hasProcesses: true,
    calls: {
      29: {
        name: "ioctl", about: "says that a stream is no terminal", serve: ofStream(NO_TERMINAL),
      },
      57: { name: "close", about: "leaves a stream open", serve: ofStream(0) },
      62: {
        name: "lseek", about: "says that a stream has no position", serve: ofStream(NO_POSITION),
      },
      63: {
        name: "read", about: "reads x12 bytes at most to address x11, of file 0",
        serve: (machine, extra) => machine.readCall(extra),
      },
      64: {
        name: "write", about: "writes x12 bytes from address x11 on, to file 1 or 2",
        serve: (machine) => machine.writeCall(),
      },
      66: {
        name: "writev", serve: writePiecesCall,
        about: "writes x12 pieces, whose addresses and lengths stand from x11 on, to file 1 or 2",
      },
      79: {
        name: "newfstatat", about: "puts the status of a stream with an empty name at x12",
        serve: namedStatusCall,
      },
      80: { name: "fstat", about: "puts the status of stream x10 at x11", serve: statusCall },
      93: { name: "exit", about: "ends, with status x10", serve: exitWith(REGISTER.A0) },
      94: { name: "exit_group", about: "ends, with status x10", serve: exitWith(REGISTER.A0) },
      160: { name: "uname", about: "puts the names of the system at x10", serve: namesCall },
      169: {
        name: "gettimeofday", about: "puts the time since 1970 at x10", serve: timeOfDayCall,
      },
      172: { name: "getpid", about: "gives 1", serve: () => 1 },
      174: { name: "getuid", about: "gives 1000", serve: () => USER },
      175: { name: "geteuid", about: "gives 1000", serve: () => USER },
      176: { name: "getgid", about: "gives 1000", serve: () => USER },
      177: { name: "getegid", about: "gives 1000", serve: () => USER },
      214: {
        name: "brk", about: "moves the end of the heap to x10",
        serve: (machine) => machine.breakCall(),
      },
      278: {
        name: "getrandom", serve: randomCall,
        about: "puts x11 random bytes at x10, 256 at most, the same in each run",
      },
      291: {
        name: "statx", about: "puts the status of a stream with an empty name at x14",
        serve: extendedStatusCall,
      },
      403: {
        name: "clock_gettime64", about: "puts the time of clock x10, from 0 to 3, at x11",
        serve: clockCall,
      },
    },
  },
  rars: {
    name: "RARS", number: REGISTER.A7, hasKeys: true,
    calls: {
      1: { name: "PrintInt", about: "prints x10 in decimal", serve: printed(REGISTER.A0, decimal) },
      4: {
        name: "PrintString", about: "prints the bytes from address x10 on, up to a 0",
        serve: printString(REGISTER.A0),
      },
      5: { name: "ReadInt", about: "reads a number in decimal", serve: readNumber },
      8: {
        name: "ReadString",
        about: "reads a line to address x10, of x11 - 1 bytes at most, and puts a 0 behind it",
        serve: readString,
      },
      9: {
        name: "Sbrk", about: "gives x10 bytes of memory: their address",
        serve: moreMemory(REGISTER.A0),
      },
      10: { name: "Exit", about: "ends, with status 0", serve: exitWithZero },
      11: { name: "PrintChar", about: "prints the byte x10", serve: printByte(REGISTER.A0) },
      12: { name: "ReadChar", about: "reads a byte", serve: readByte },
      17: {
        name: "GetCWD", about: "puts the name of the folder, /, at x10, where x11 bytes are",
        serve: folderCall,
      },
      30: {
        name: "Time", about: "gives the milliseconds since 1970, their high half in x11",
        serve: millisecondsCall,
      },
      32: { name: "Sleep", about: "waits x10 milliseconds", serve: sleepCall },
      34: {
        name: "PrintIntHex", about: "prints x10 in hexadecimal",
        serve: printed(REGISTER.A0, (value) => hex(value)),
      },
      35: {
        name: "PrintIntBinary", about: "prints x10 in binary",
        serve: printed(REGISTER.A0, binary),
      },
      36: {
        name: "PrintIntUnsigned", about: "prints x10 in decimal, without a sign",
        serve: printed(REGISTER.A0, String),
      },
      40: {
        name: "RandSeed", about: "starts the generator x10 by the seed x11", serve: seedCall,
      },
      41: {
        name: "RandInt", about: "gives a random number, of the generator x10",
        serve: anyNumberCall,
      },
      42: {
        name: "RandIntRange", about: "gives one that is less than x11, of the generator x10",
        serve: numberBelowCall,
      },
      93: { name: "Exit2", about: "ends, with status x10", serve: exitWith(REGISTER.A0) },
    },
  },
  venus: {
    name: "Venus", number: REGISTER.A0,
    calls: {
      1: {
        name: "print_int", about: "prints x11 in decimal",
        serve: printed(REGISTER.A1, decimal),
      },
      4: {
        name: "print_string", about: "prints the bytes from address x11 on, up to a 0",
        serve: printString(REGISTER.A1),
      },
      9: {
        name: "sbrk", about: "gives x11 bytes of memory: their address",
        serve: moreMemory(REGISTER.A1),
      },
      10: { name: "exit", about: "ends, with status 0", serve: exitWithZero },
      11: { name: "print_character", about: "prints the byte x11", serve: printByte(REGISTER.A1) },
      17: { name: "exit2", about: "ends, with status x11", serve: exitWith(REGISTER.A1) },
      34: {
        name: "print_hex", about: "prints x11 in hexadecimal",
        serve: printed(REGISTER.A1, upperHex),
      },
    },
  },
  // an ecall goes to the handler
  machine: { name: "machine mode", number: REGISTER.A7, hasTraps: true, calls: {} },
};

/** The calls of an environment, as a sentence has them: `1 (print_int), .. and 34 (print_hex)`. */
function callsOf({ calls }) {
  const all = Object.entries(calls).map(([number, { name }]) => `${number} (${name})`);
  return `${all.slice(0, -1).join(", ")} and ${all.at(-1)}`;
}
