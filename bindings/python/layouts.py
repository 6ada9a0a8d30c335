#!/usr/bin/env python3
"""Prints the layouts of the structs that rrs.py shares with the library, and its constants, in the
form of the list that bindings/layouts.py makes of rrs.h."""

import rrs

STRUCTS = {
    "rrs_hart": rrs._Hart,
    "rrs_fault": rrs._Fault,
    "rrs_end": rrs._End,
    "rrs_cache": rrs._Cache,
    "rrs_retired": rrs._Retired,
    "rrs_difference": rrs._Difference,
    "rrs_instruction": rrs._Instruction,
    "rrs_access": rrs._Access,
    "rrs_change": rrs._Change,
    "rrs_reservation": rrs._Reservation,
    "rrs_csrs": rrs._Csrs,
    "rrs_outcome": rrs._Outcome,
    "rrs_machine_retired": rrs._MachineRetired,
    "rrs_csr": rrs._Csr,
    "rrs_uart": rrs._Uart,
    "rrs_board": rrs._Board,
    "rrs_board_end": rrs._BoardEnd,
    "rrs_elf": rrs._Elf,
    "rrs_segment": rrs._Segment,
    "rrs_loaded": rrs._Loaded,
    "rrs_location": rrs._Location,
    "rrs_room": rrs._Room,
    "rrs_statement": rrs._Statement,
    "rrs_symbol": rrs._Symbol,
    "rrs_mistake": rrs._Mistake,
    "rrs_assembled": rrs._Assembled,
}

for name, struct in STRUCTS.items():
    print(name, rrs.ctypes.sizeof(struct))
    for field, kind in struct._fields_:
        place = getattr(struct, field)
        sign = " signed" if kind is rrs.ctypes.c_int32 else ""
        print(f"{name}.{field} {place.offset} {place.size}{sign}")
print("RRS_OK 0")
for kind in rrs.FaultKind:
    print(f"RRS_{kind.name} {kind.value}")
print("RRS_SAME 0")
for field in rrs.Field:
    print(f"RRS_FIELD_{field.name} {field.value}")
print("RRS_ROW_ILLEGAL 0")
for row in rrs.Row:
    print(f"RRS_ROW_{row.name} {row.value}")
print("RRS_NO_ACCESS 0")
for kind in rrs.AccessKind:
    print(f"RRS_{kind.name} {kind.value}")
for layer in rrs.HartLayer:
    print(f"RRS_HART_{layer.name} {layer.value}")
for layer in rrs.MachineLayer:
    print(f"RRS_MACHINE_{layer.name} {layer.value}")
for kind in rrs.OutcomeKind:
    print(f"RRS_{kind.name} {kind.value}")
for event in rrs.BoardEvent:
    print(f"RRS_BOARD_{event.name} {event.value}")
print("RRS_ELF_OK 0")
for refusal in rrs._ElfRefusal:
    print(f"RRS_ELF_{refusal.name} {refusal.value}")
print("RRS_ELF_NOT_IN_WORDS", rrs._NOT_IN_WORDS)
print("RRS_NOWHERE 0")
print("RRS_IN_FUNCTION", rrs._IN_FUNCTION)
print("RRS_BEHIND 2")
for end in rrs._AssemblyEnd:
    print(f"RRS_{end.name} {end.value}")
print("RRS_NAME_SIZE", rrs._NAME_SIZE)
print("RRS_NO_CAUSE", rrs._NO_CAUSE)
print("RRS_TEXT_SIZE", rrs._TEXT_SIZE)
print("RRS_VERSION", rrs._VERSION)
print("RRS_VERSION_MAJOR", rrs._VERSION >> 16)
print("RRS_VERSION_MINOR", rrs._VERSION >> 8 & 255)
print("RRS_VERSION_PATCH", rrs._VERSION & 255)
