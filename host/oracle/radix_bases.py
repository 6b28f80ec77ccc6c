#!/usr/bin/env python3
# Writes num-bigint's table of radix powers, which its own build program would write: compiled by plain rustc calls, the
# crate has no build program. Each entry is the greatest power of the radix that fits the width, with its exponent.
def entry(radix, largest):
    if radix == 0 or radix & (radix - 1) == 0:
        return 0, 0
    base, power = radix, 1
    while base * radix <= largest:
        base, power = base * radix, power + 1
    return base, power


for bits in (16, 32, 64):
    rows = ", ".join("(%d, %d)" % entry(radix, 2**bits - 1) for radix in range(257))
    print("pub(crate) static BASES_%d: [(u%d, usize); 257] = [%s];" % (bits, bits, rows))
