"""Runs three instructions and prints their texts, how the run ended, and a register."""

from rrs import Machine, disassemble

base = 0x80000000
machine = Machine([0x1234B137, 0xF387E1B7, 0x003100B3], base)
for place, word in enumerate(machine.memory):
    address = base + 4 * place
    print(f"0x{address:08x}: {disassemble(word, address)}")
print(machine.run(10))
print(f"x1 = 0x{machine.registers[1]:08x}")
