# Writes data/square.bin: 40,010 edges, a one every 10 samples from sample 5 on; the last 9 come 3 samples late.
edges = [5 + 10 * r + (3 if r > 40000 else 0) for r in range(40010)]
bits = bytearray((edges[-1] + 8) // 8)
for p in edges:
    bits[p // 8] |= 1 << (p % 8)
open("data/square.bin", "wb").write(bits)
