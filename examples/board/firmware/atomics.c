// The instructions of extension A: each AMO over pairs of words, lr.w and sc.w in several orders, and what raises
// an exception. An lr.w has the exceptions of a load, and the others have those of a store.
#include <stdint.h>
#define UART (*(volatile uint8_t *)0x10000000)
#define UNMAPPED ((uint32_t *)0x08000000)
static void put(const char *s) { while (*s) UART = *s++; }
static void hex(uint32_t v) { for (int i = 28; i >= 0; i -= 4) { UART = "0123456789abcdef"[v >> i & 15]; } put(" "); }
static volatile uint32_t cause, value; static uint32_t words[4];
uint32_t trap(uint32_t c, uint32_t epc, uint32_t tval) { cause = c; value = tval; return epc + 4; }
#define AMO(name) do { uint32_t r_; words[0] = old; \
  __asm__ volatile(name " %0, %2, (%1)" : "=r"(r_) : "r"(words), "r"(operand) : "memory"); \
  put(name " "); hex(old); hex(operand); hex(r_); hex(words[0]); put("\n"); } while (0)
static void each_amo(uint32_t old, uint32_t operand) {
  AMO("amoswap.w"); AMO("amoadd.w"); AMO("amoxor.w.aq"); AMO("amoand.w"); AMO("amoor.w.rl"); AMO("amomin.w.aqrl");
  AMO("amomax.w"); AMO("amominu.w"); AMO("amomaxu.w"); }
// rd is 0x55 before, and the operand is 5. mtval is told as the distance from the address where it is one.
#define TRIED(what, text, at) do { uint32_t r_ = 0x55, a_ = (uint32_t)(at); cause = -1; value = 0; words[0] = 7; words[1] = 9; \
  __asm__ volatile(text : "+&r"(r_), "+r"(a_) : "r"(5) : "memory"); \
  put(what ": cause "); hex(cause); put("value "); hex(cause >= 4 && cause < 8 ? value - (uint32_t)(at) : value); \
  put("rd "); hex(r_); put("words "); hex(words[0]); hex(words[1]); put("\n"); } while (0)
int main(void) {
  static const uint32_t olds[] = {0, 0x7fffffff, 0x80000000, 0xffffffff}, operands[] = {1, 0xffffffff, 0x80000000, 0x0f0f0f0f};
  for (int i = 0; i < 16; i++) each_amo(olds[i / 4], operands[i % 4]);
  TRIED("sc.w alone", "sc.w %0, %2, (%1)", words);
  TRIED("lr.w", "lr.w %0, (%1)", words);
  TRIED("sc.w after it", "sc.w %0, %2, (%1)", words);
  TRIED("sc.w once more", "sc.w %0, %2, (%1)", words);
  TRIED("lr.w, sc.w elsewhere", "lr.w %0, (%1)\naddi %1, %1, 4\nsc.w %0, %2, (%1)", words);
  TRIED("and then there", "sc.w %0, %2, (%1)", words);
  TRIED("lr.w, a store, sc.w", "lr.w %0, (%1)\nsw %0, 0(%1)\nsc.w %0, %2, (%1)", words);
  TRIED("lr.w, lr.w elsewhere, sc.w", "lr.w %0, (%1)\naddi %1, %1, 4\nlr.w %0, (%1)\nsc.w %0, %2, (%1)", words);
  TRIED("lr.w, a trap, sc.w", "lr.w %0, (%1)\necall\nsc.w %0, %2, (%1)", words);
  TRIED("lr.w, a misaligned sc.w", "lr.w %0, (%1)\naddi %1, %1, 1\nsc.w %0, %2, (%1)\naddi %1, %1, -1\nsc.w %0, %2, (%1)", words);
  TRIED("operand and rd in one", "mv %0, %2\namoadd.w %0, %0, (%1)", words);
  TRIED("rd x0", "amoswap.w x0, %2, (%1)", words);
  TRIED("lr.w misaligned", "lr.w %0, (%1)", (uint8_t *)words + 2); TRIED("sc.w misaligned", "sc.w %0, %2, (%1)", (uint8_t *)words + 1);
  TRIED("amoadd.w misaligned", "amoadd.w %0, %2, (%1)", (uint8_t *)words + 3);
  TRIED("lr.w unmapped", "lr.w %0, (%1)", UNMAPPED); TRIED("sc.w unmapped", "sc.w %0, %2, (%1)", UNMAPPED);
  TRIED("amoand.w unmapped", "amoand.w %0, %2, (%1)", UNMAPPED);
  TRIED("lr.w with rs2", ".word 0x1017272f", words); TRIED("funct5 5", ".word 0x2817272f", words);
  TRIED("amoadd.d", ".word 0x0017372f", words);
  __asm__ volatile("la a5, 1f\ncsrw mepc, a5\ncsrw mstatus, x0\nmret\n1:" ::: "a5", "memory");
  TRIED("in user mode", "amoadd.w %0, %2, (%1)", words);
  TRIED("lr.w, sc.w there", "lr.w %0, (%1)\nsc.w %0, %2, (%1)", words);
  return 0; }
