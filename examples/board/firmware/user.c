// What user mode has and has not: each instruction is tried there, and an ecall goes back to machine mode. Then
// the fields of mstatus, the CSRs that are there with user mode, and an interrupt in user mode with MIE 0.
#include <stdint.h>
#define UART (*(volatile uint8_t *)0x10000000)
#define MSIP (*(volatile uint32_t *)0x2000000)
#define csr_read(name) ({ uint32_t v_; __asm__ volatile("csrr %0, " #name : "=r"(v_)); v_; })
#define csr_write(name, v) __asm__ volatile("csrw " #name ", %0" ::"r"(v))
static void put(const char *s) { while (*s) UART = *s++; }
static void hex(uint32_t v) { for (int i = 28; i >= 0; i -= 4) UART = "0123456789abcdef"[v >> i & 15]; }
static volatile uint32_t cause, value, status; static volatile int goes_back;
uint32_t trap(uint32_t c, uint32_t epc, uint32_t tval) {
  cause = c; value = tval; status = csr_read(mstatus);
  if (goes_back) { __asm__ volatile("csrs mstatus, %0" ::"r"(0x1800)); goes_back = 0; }
  if (c == 0x80000003) { MSIP = 0; return epc; }
  return epc + 4; }
static void tell(const char *what, uint32_t c, uint32_t v, uint32_t s) {
  put(what); put(": cause "); hex(c); put(" value "); hex(c == 3 ? 0 : v); put(" mstatus "); hex(s);
  put(", ecall: "); hex(cause); put(" mstatus "); hex(status); put("\n"); }
#define TRIED(what, bits, text) do { cause = -1; value = status = 0; uint32_t c_, v_, s_; \
  __asm__ volatile("la a5, 1f\ncsrw mepc, a5\ncsrw mstatus, %0\nmret\n1: " text :: "r"(bits) : "a4", "a5", "memory"); \
  c_ = cause; v_ = value; s_ = status; goes_back = 1; __asm__ volatile("ecall" ::: "memory"); tell(what, c_, v_, s_); } while (0)
int main(void) {
  put("user mode, misa "); hex(csr_read(misa) & 0xc0101100); put("\n");
  csr_write(mcounteren, 0);
  TRIED("nothing", 0x80, "nop"); TRIED("ecall", 0, "ecall"); TRIED("ebreak", 0x80, "ebreak"); TRIED("mret", 0, "mret");
  TRIED("csrr mstatus", 0, "csrr a4, mstatus"); TRIED("csrw mscratch", 0x80, "csrw mscratch, a4");
  TRIED("csrr mhartid", 0, "csrr a4, mhartid"); TRIED("csrr mcounteren", 0, "csrr a4, mcounteren"); TRIED("no CSR", 0, "csrr a4, 0x8ff");
  TRIED("rdcycle", 0, "rdcycle a4"); TRIED("rdtime", 0, "rdtime a4"); TRIED("rdinstreth", 0, "rdinstreth a4");
  csr_write(mcounteren, 5); put("mcounteren "); hex(csr_read(mcounteren)); put("\n");
  TRIED("rdcycle", 0, "rdcycle a4"); TRIED("rdtime", 0, "rdtime a4"); TRIED("rdinstreth", 0, "rdinstreth a4"); TRIED("csrw cycle", 0, "csrw cycle, a4");
  TRIED("a load", 0, "li a5, 0x08000000\nlw a4, 0(a5)"); TRIED("a store", 0, "li a5, 0x08000000\nsw a4, 0(a5)");
  TRIED("wfi with TW", 0x200000, "wfi"); TRIED("MPRV", 0x20000, "nop"); TRIED("fence.i", 0, ".word 0x100f");
  csr_write(mie, 8); MSIP = 1; TRIED("an interrupt", 0, "nop"); csr_write(mie, 0);
  for (uint32_t i = 0; i < 4; i++) { csr_write(mstatus, i & 1 ? 0x1800 : 0); csr_write(mstatus, i << 11); put("MPP of "); hex(i); put(": "); hex(csr_read(mstatus) >> 11 & 3); put("\n"); }
  csr_write(mstatus, 0x221888); put("mstatus "); hex(csr_read(mstatus)); csr_write(mstatus, 0); put(" "); hex(csr_read(mstatus)); put("\n");
  return 0; }
