# Writes stdin and data/: document 01's record A in 16 samples, B with as many edges, record C in 65,544, D with two entries that
# spill, and the command lines, one to a line, a double space standing for an empty argument. They run in this order, and an index
# that one saves is there for the next.
def write(name, samples, edges):
    bits = bytearray(samples // 8)
    for p in edges:
        bits[p // 8] |= 1 << (p % 8)
    open(name, "wb").write(bits)


write("stdin", 16, [1, 4, 6, 9])
write("data/a.bin", 16, [1, 4, 6, 9])
write("data/b.bin", 16, [0, 2, 5, 9])
write("data/c.bin", 65544, [0, 65539])
write("data/d.bin", 131080, [0, 65539, 65540, 131079])

CASES = """

-
a.bin
a.bin 0 1 2 3
a.bin 1 1
a.bin --samples 10
a.bin --samples 0
--zeros --samples 10 a.bin 0 5
a.bin --origin 100 0 3
--zeros --samples 10 --origin 7 a.bin 5
a.bin --origin 4611686018427387887 3
a.bin --origin 4611686018427387888 3
a.bin --origin 18446744073709551615
a.bin --at 5
a.bin --at 0
a.bin --at 1
a.bin --at 10
a.bin --at 16
a.bin --at 17
a.bin --samples 10 --zeros --at 9 5
a.bin --origin 100 --at 105 1 2
a.bin --origin 100 --at 100
a.bin --origin 100 --at 99
a.bin --samples 10 --origin 100 --at 110
a.bin --samples 0 --at 0
c.bin --power 1 --at 65539
a.bin --at
a.bin --at x
a.bin --span 8
a.bin --power 1
a.bin --power 1 3
a.bin --overhead 12.5
c.bin --zeros
c.bin --zeros --overhead 1000 65541
c.bin --zeros --overhead 14.062
c.bin --zeros --overhead 14.063
c.bin --power 1
c.bin --power 1 1
a.bin --samples 10 --power 1 --origin 100 --save a.index
a.bin --samples 10 --power 1 --origin 100 --index a.index 0 1 2 3
b.bin --samples 10 --power 1 --origin 100 --save b.index 1
a.bin --samples 10 --power 1 --origin 100 --index b.index 1
a.bin --samples 10 --power 1 --index a.index 1
a.bin --index a.index
c.bin --power 1 --index a.index
c.bin --zeros --save c.index 65541
c.bin --zeros --index c.index 65541
a.bin --power 64 --save a.index
a.bin --samples 10 --power 1 --origin 100 --index a.index 3
d.bin --zeros --power 4 --save d.index
a.bin --index nosuch.index
a.bin --index a.bin
a.bin --index d.bin
a.bin --index .
a.bin --save nosuch/a.index
a.bin --save a.index --index a.index
a.bin --save
a.bin --index
nosuch.bin
a.bin/b
.
/dev/zero
a.bin 4x
a.bin -1
a.bin  1
a.bin 18446744073709551615
a.bin 18446744073709551616
a.bin 4x18446744073709551616
a.bin --span many
a.bin --samples 99999999999999999999
a.bin --overhead 10%
a.bin --overhead 1.
a.bin --overhead .5
a.bin --overhead 1.2345
a.bin --overhead 1.2.3
a.bin --overhead 1000000000
a.bin --samples
a.bin --samples --help
a.bin --speed
--help
a.bin --help
a.bin --samples 17
a.bin 3 4
a.bin --power 64
a.bin --overhead 0
c.bin --zeros --power 0
d.bin --power 1
a.bin 2 1
"""
many = "-" + " 0" * 1025 + "\n"
open("data/cases", "w").write(CASES[1:] + many)
