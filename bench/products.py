#!/usr/bin/env python3
"""bench/products.py [BITS]: how exact products of known bits are. `kb MUL 64` of ./probewarden batch, on all pairs of pairs of BITS bits
(5 if none are named), as they are and cut to BITS bits: held against the best pair, found by enumeration, against the mask alone, which the
product was before request L, against shift and add over the digits of one operand and of both, and against the algorithm of Linux's verifier,
written from its description. Status 1: an answer is unsound."""
import subprocess
import sys

BITS = int(sys.argv[1]) if len(sys.argv) > 1 else 5
WORD = (1 << 64) - 1
pairs = [(v, m) for v in range(1 << BITS) for m in range(1 << BITS) if not v & m]


def numbers(p):
    return [x for x in range(1 << BITS) if x & ~p[1] == p[0]]


def best(xs, ys, ones):
    some, every = 0, ones
    for x in xs:
        for y in ys:
            some |= x * y & ones
            every &= x * y
    return every, some & ~every


def add(a, b):
    low, high = a[0] + b[0] & WORD, (a[0] | a[1]) + (b[0] | b[1]) & WORD
    mask = low ^ high | a[1] | b[1]
    return low & ~mask, mask


def linux(a, b):
    """The known parts are multiplied; what the unknown digits of a and the unknown bits of b may add is gathered apart."""
    unknown = (0, 0)
    for k in range(BITS):
        if a[0] >> k & 1:
            unknown = add(unknown, (0, b[1] << k))
        elif a[1] >> k & 1:
            unknown = add(unknown, (0, (b[0] | b[1]) << k))
    return add((a[0] * b[0], 0), unknown)


def shift_and_add(a, b):
    got = (0, 0)
    for k in range(BITS):
        more = add(got, (b[0] << k, b[1] << k))
        if a[1] >> k & 1:
            mask = got[0] ^ more[0] | got[1] | more[1]
            got = got[0] & ~mask, mask
        elif a[0] >> k & 1:
            got = more
    return got


def mask_alone(a, b):
    if not a[1] | b[1]:
        return a[0] * b[0], 0
    t, u = a[0] | a[1], b[0] | b[1]
    return 0, (1 << (t * u).bit_length()) - 1 & ~((t & -t) * (u & -u) - 1) if t * u else 0


asked = "".join("kb MUL 64 %x/%x %x/%x\n" % (a + b) for a in pairs for b in pairs)
said = subprocess.run(["./probewarden", "batch"], input=asked, capture_output=True, text=True, check=True).stdout.split()
answers = [tuple(int(n, 16) for n in line.split("/")) for line in said]
members = {p: numbers(p) for p in pairs}
for width in 64, BITS:
    ones = (1 << width) - 1
    met = dict.fromkeys(("ours", "the mask", "one operand", "both", "Linux's"), 0)
    against = dict.fromkeys(("sharper", "the same", "blunter", "neither"), 0)
    for n, (a, b) in enumerate((a, b) for a in pairs for b in pairs):
        top = best(members[a], members[b], ones)
        ours, theirs = tuple(x & ones for x in answers[n]), tuple(x & ones for x in linux(a, b))
        if (top[1] | top[0] ^ ours[0]) & ~ours[1]:
            sys.exit("%x/%x * %x/%x = %x/%x is unsound" % (a + b + answers[n]))
        one, other = shift_and_add(a, b), shift_and_add(b, a)
        both = one[0] | other[0], one[1] & other[1]
        for name, p in zip(met, (ours, mask_alone(a, b), one, both, theirs)):
            met[name] += (p[0] & ones, p[1] & ones) == top
        less, more = theirs[1] & ~ours[1], ours[1] & ~theirs[1]
        against["neither" if less and more else "sharper" if less else "blunter" if more else "the same"] += 1
    share = lambda d: ", ".join("%s %d (%.2f %%)" % (k, v, 100 * v / len(answers)) for k, v in d.items())
    print("%d pairs, %d bits of the product. Best: %s" % (len(answers), width, share(met)))
    print("    ours to Linux's: %s" % share(against))
