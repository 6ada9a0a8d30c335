"""Checks a core from a testbench in Python: each record of its RVFI port is compared with the
model's. ``dut`` is what cocotb hands to a test, or anything whose ports have a ``value``."""

from rrs import Retired, compare

PORTS = [name for name in Retired._fields if name != "fetched"]


async def check_core(dut, edge, model, csrs, records):
    """Compares so many records of ``dut``, whose clock's next edge is awaited by ``edge()``, with
    those of ``model``, a Machine with machine mode, and ``csrs``, its Csrs. A trap goes on at the
    handler that these name. A record that differs is an AssertionError."""
    order = 0
    while order < records:
        await edge()
        if not int(dut.rvfi_valid.value):
            continue
        ports = {name: int(getattr(dut, f"rvfi_{name}").value) for name in PORTS}
        core = Retired(fetched=1, **ports)
        want = model.machine_step(csrs, order=order)[1].retired
        difference = compare(want, core, by_words=True)
        if difference:  # no assert, which python -O leaves out
            raise AssertionError(f"record {order}, pc 0x{want.pc_rdata:08x}: {difference}")
        order += 1
