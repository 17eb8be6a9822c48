#!/usr/bin/env python3
"""The trial program's own script: the boundaries and the paper's numbers, through the real calls.

    tests/trial_script.py SECOND FOLDER

writes FOLDER/stdin, the script, and FOLDER/stdout, what the trial program has to print. What document 01 says stands here beside
its step: verdicts, lists, cells, refusals, and the sums of buffers whose every entry it gives. `...` stands where only the second program
says the words (SECOND is its binary). Both have to agree, or nothing is written and the exit status is 1.
"""
import pathlib
import re
import subprocess
import sys

BYTE, NUMBER = 165, 42405
SESSION, TALLIES, BYTES, NUMBERS = 8771, 8192, 9000, 8400
SHORT, VERSION, LENGTH, SIZE, CELL, STEP, FULL, SLOT, DAMAGED, RECORD, FAULT = range(1, 12)

script = bytearray()
wanted = []


def step(name, operands, words):
    """One operation: its code, its operands, and the words that it has to print after its name."""
    script.append(NAMES.index(name))
    script.extend(operands)
    wanted.append(f"{name} {words}".rstrip())


NAMES = ["LEND", "START", "ADD", "AMEND", "WITHDRAW", "LOAD", "SAVE", "LIST", "AUDIT", "SYMPTOMS", "CONFLICT", "CANDIDATES", "POKE", "TALLY",
         "SUM", "TABLE", "RETEST", "JUDGE"]


def two(x):
    return x.to_bytes(2, "big")


def four(x):
    return x.to_bytes(4, "big")


def counted(b):
    return two(len(b)) + bytes(b)


def sum_of(entries):
    total = 1
    for x in entries:
        total = (31 * total + x) % 65521
    return total


def in_bytes(entries):
    """The sum of the answer buffer of bytes with these entries at its start."""
    return f"# {sum_of(list(entries) + [BYTE] * (BYTES - len(entries)))}"


def in_numbers(entries):
    """The sum of the answer buffer of numbers with these entries at its start."""
    return f"# {sum_of(list(entries) + [NUMBER] * (NUMBERS - len(entries)))}"


def memory(session, tallies):
    """The two sums of the memory with these bytes and tallies at its start."""
    return f"{sum_of(list(session) + [BYTE] * (BYTES - len(session)))} {sum_of(list(tallies) + [NUMBER] * (NUMBERS - len(tallies)))}"


# Files.

def table(n, k, m, cells):
    rest = bytes([n, k, m]) + bytes(x for cell in cells for x in cell)
    return bytes([1]) + two(len(rest)) + rest


U = (255, 255)
FIVE_CELLS = [(1, 1), (2, 3), (0, 0), (0, 2), (2, 3), (1, 0), (3, 1), (2, 0), (0, 0), (2, 2), U, (1, 0)]
EIGHT_CELLS = [(1, 1), (2, 3), (0, 0), (0, 2), (2, 3), (1, 0), (3, 1), (4, 4), (0, 0), (2, 2), (4, 4), (1, 0), (4, 0), U, (0, 0)]
FIVE = table(4, 3, 4, FIVE_CELLS)
EIGHT = table(5, 3, 5, EIGHT_CELLS)


def record(cases):
    rest = b"".join(bytes([len(i)]) + bytes(i) + bytes(o) for i, o in cases)
    return bytes([1]) + two(len(rest)) + rest


# The session's bytes, as the paper lays them out.

def session_of(file, cases):
    cells = file[6:]
    held = b""
    for i, o in cases:
        held += bytes([len(i)]) + bytes(i) + bytes(64 - len(i)) + bytes(o) + bytes(64 - len(o))
    return file[3:6] + cells + bytes(512 - len(cells)) + held + bytes(64 * 129 - len(held))


# Operations.

def lend(s, t):
    step("LEND", two(s) + two(t), f"{min(s, BYTES)} {min(t, NUMBERS)}")


def refused(number, carried=0):
    return f"NO {number} {carried}"


def start(file, words="OK 0"):
    step("START", counted(file), words)


def add(inputs, outputs, words):
    step("ADD", counted(inputs) + counted(outputs), words)


def amend(place, inputs, outputs, words="OK 0"):
    step("AMEND", four(place) + counted(inputs) + counted(outputs), words)


def withdraw(place, words="OK 0"):
    step("WITHDRAW", four(place), words)


def load(file, words):
    step("LOAD", counted(file), words)


def save(cases, room=None):
    """Saved with just enough room; with less, SHORT and the count needed."""
    file = record(cases)
    if room is None:
        step("SAVE", two(len(file)), f"OK {len(file)} {in_bytes(file)}")
    else:
        step("SAVE", two(room), f"{refused(SHORT, len(file))} {in_bytes([])}")


def listed(verdict, numbers, room=NUMBERS):
    step("LIST", two(room), " ".join(map(str, ["OK", verdict, len(numbers)] + numbers + [in_numbers(numbers)])))


def audit(words="OK TRUE"):
    step("AUDIT", b"", words)


def symptoms(place, words):
    step("SYMPTOMS", four(place), words)


def cell_set(cells):
    bits = [int(c in cells) for c in range(256)]
    return " ".join(map(str, ["OK"] + cells + [in_bytes(bits)]))


def conflict(place, cells, room=256):
    step("CONFLICT", four(place) + two(room), cell_set(cells))


def candidates(cells, room=256):
    step("CANDIDATES", two(room), cell_set(cells))


def tally(number, value):
    step("TALLY", two(number) + two(value), f"{number} {value}")


def poke(at, value):
    step("POKE", two(at) + bytes([value]), f"{at} {value}")


def summed(words):
    step("SUM", b"", words)


# 1. Memory that no session was started in: SHORT comes before DAMAGED, and a refusal leaves all as it was.
summed(memory([], []))
add([0], [1], refused(DAMAGED))
step("LIST", two(NUMBERS), f"{refused(DAMAGED)} {in_numbers([])}")
lend(8770, 8192)
add([0], [1], refused(SHORT))
start(FIVE, refused(SHORT))
lend(8771, 8191)
add([0], [1], refused(SHORT))
start(FIVE, refused(SHORT))
summed(memory([], []))

# 2. 8,771 bytes and 8,192 tallies are taken; with longer memory the tails stay as they were.
lend(8771, 8192)
start(FIVE)
summed(memory(session_of(FIVE, []), [0] * TALLIES))
lend(9000, 8400)
poke(0, 0)
start(FIVE)
summed(memory(session_of(FIVE, []), [0] * TALLIES))
lend(8771, 8192)

# 3. The built-in tables, 30 and 36 bytes; SHORT carries the count needed.
step("TABLE", b"\0" + two(30), f"OK 30 {in_bytes(FIVE)}")
step("TABLE", b"\0" + two(29), f"{refused(SHORT, 30)} {in_bytes([])}")
step("TABLE", b"\1" + two(36), f"OK 36 {in_bytes(EIGHT)}")
step("TABLE", b"\1" + two(35), f"{refused(SHORT, 36)} {in_bytes([])}")

# 4. P1 and P2: no symptom, and the first of none is 64.
add([1, 0, 2, 0], [3, 1, 0, 2], "OK 0")
symptoms(0, "OK 0 64")
conflict(0, [])
add([1, 1], [3, 0], "OK 1")
symptoms(1, "OK 0 64")
candidates([])
audit()

# 5. Case 1 1 seen 3 4: STEP on the five-litre table; CLEAR on the eight-litre one.
add([1, 1], [3, 4], refused(STEP))
start(EIGHT)
add([1, 1], [3, 4], "OK 0")
symptoms(0, "OK 0 64")
step("LIST", two(NUMBERS), "OK CLEAR ...")

# 6. P3.
start(FIVE)
add([0, 0], [1, 3], "OK 0")
listed("FOUND", [27])
symptoms(0, "OK 1 1")
audit()

# 7. P4. An answer buffer of just three entries is taken; with two, SHORT carries the three.
start(FIVE)
add([0, 0], [1, 1], "OK 0")
listed("FOUND", [4, 6, 25])
listed("FOUND", [4, 6, 25], 3)
step("LIST", two(2), f"{refused(SHORT, 3)} {in_numbers([])}")
audit()

# 8. P5. 256 bytes of answer are taken; with 255, SHORT carries 0.
start(FIVE)
P5 = ([1, 2, 1], [3, 0, 0])
add(*P5, "OK 0")
symptoms(0, "OK 1 2")
conflict(0, [1, 8])
conflict(0, [1, 8], 9000)
candidates([1, 8])
step("CONFLICT", four(0) + two(255), f"{refused(SHORT)} {in_bytes([])}")
step("CANDIDATES", two(255), f"{refused(SHORT)} {in_bytes([])}")
listed("FOUND", [70, 71])
audit()

# 9. P6: the second case leaves 70 alone. Tally 71 is 1: storing a 1 there changes nothing, a 0 is found by the audit and listed.
P6 = ([1, 2, 0], [3, 0, 1])
add(*P6, "OK 1")
listed("FOUND", [70])
symptoms(1, "OK 0 64")
tally(71, 1)
audit()
tally(71, 0)
audit("OK FALSE 71")
listed("FOUND", [70, 71])
# and the second case could not be taken away from a tally of 0
withdraw(1, refused(DAMAGED))
amend(1, *P6, refused(DAMAGED))
tally(71, 1)
audit()
save([P5, P6])
save([P5, P6], len(record([P5, P6])) - 1)

# 10. P7: the first case withdrawn. The place is used again by the next addition; an amendment keeps it.
withdraw(0)
step("LIST", two(NUMBERS), "OK CLEAR 53 ...")
withdraw(0, refused(SLOT))
symptoms(0, refused(SLOT))
step("CONFLICT", four(0) + two(256), f"{refused(SLOT)} {in_bytes([])}")
candidates([])
add(*P5, "OK 0")
listed("FOUND", [70])
amend(0, [0, 0], [1, 3])
amend(1, [0, 0], [1, 3])
listed("FOUND", [27])
audit()

# 11. P8: all 96 tallies are 1, and the tails of longer memory stay as they were.
lend(9000, 8400)
start(FIVE)
P8 = ([1, 2, 1], [3, 0, 2])
add(*P8, "OK 0")
listed("NONE", [])
conflict(0, [1, 8])
audit()
summed(memory(session_of(FIVE, [P8]), [1] * 96 + [0] * (TALLIES - 96)))
lend(8771, 8192)

# 12. P9 and P10.
ONE_TWO = table(1, 1, 2, [(0, 0)])
start(ONE_TWO)
add([0], [1], "OK 0")
listed("FOUND", [1])
start(ONE_TWO)
add([0, 0], [0, 1], "OK 0")
listed("NONE", [])
start(table(1, 1, 1, [(0, 0)]))
add([0, 0], [0, 0], "OK 0")
listed("CLEAR", [])
audit()

# 13. Tables: n of 16 is taken, 0 and 17 are SIZE; next n - 1 is taken, n is CELL with its number; 255 with 0 is CELL; the largest table.
start(table(16, 1, 1, [(0, 0)] * 16))
start(table(0, 1, 1, []), refused(SIZE))
start(table(17, 1, 1, [(0, 0)] * 17), refused(SIZE))
start(table(2, 1, 1, [(0, 0), (1, 0)]))
start(table(2, 1, 1, [(0, 0), (2, 0)]), refused(CELL, 1))
start(table(2, 1, 1, [(0, 0), (0, 1)]), refused(CELL, 1))
start(table(2, 1, 1, [(255, 0), (2, 0)]), refused(CELL, 0))
start(table(2, 1, 1, [U, U]))
LARGEST = table(16, 16, 16, [((c + 1) % 16, c % 16) for c in range(256)])
start(LARGEST)
add([15] * 64, [0] * 64, "OK 0")
audit()
tally(8191, 0)
audit("...")

# 14. Table files that are none: LENGTH for under 3 bytes, VERSION, LENGTH, SIZE.
start(b"\1\0", refused(LENGTH))
start(b"\2\0", refused(LENGTH))
start(b"\2" + FIVE[1:], refused(VERSION))
start(FIVE[:-1], refused(LENGTH))
start(b"\1\0\2\4\3", refused(SIZE))

# 15. Cases: length 64 is taken, 65 is STEP, and so are 0, unequal lengths, an input of k and an output of m.
start(FIVE)
add([2] * 64, [0] * 64, "OK 0")
add([2] * 65, [0] * 65, refused(STEP))
add([], [], refused(STEP))
add([2, 2], [0], refused(STEP))
add([3], [0], refused(STEP))
add([2], [4], refused(STEP))

# 16. 64 cases are taken, the next is FULL; place 63 is one, 64 is none. Loading is all or none; of no case it is taken.
load(record([([0], [1])] * 63), "OK 63")
add([0], [1], refused(FULL))
load(record([([0], [1])]), refused(FULL))
load(record([]), "OK 0")
symptoms(63, "OK 0 64")
symptoms(64, refused(SLOT))
amend(64, [0], [1], refused(SLOT))
withdraw(64, refused(SLOT))
withdraw(4294967295, refused(SLOT))
amend(63, [0, 0], [1, 3])
listed("FOUND", [27])
withdraw(63)
withdraw(0)
load(record([([0], [1])] * 3), refused(FULL))
load(record([([0, 0], [1, 1]), ([0], [1])]), "OK 2")
symptoms(0, "OK 1 1")
listed("FOUND", [4, 6, 25])
add([0], [1], refused(FULL))
save([([0, 0], [1, 1])] + [([0], [1])] * 63)
audit()
start(FIVE)
load(record([([0], [1])] * 64), "OK 64")
add([0], [1], refused(FULL))

# 17. Records that are none: RECORD for a length of 0 or 65, a case past the end, 65 cases; STEP of a case within changes nothing.
start(FIVE)
load(b"\1\0\1\0", refused(RECORD))
load(record([([0] * 65, [0] * 65)]), refused(RECORD))
load(b"\1\0\4\2\0\0\0", refused(RECORD))
load(record([([0], [1])] * 65), refused(RECORD))
load(b"\2\0\0", refused(VERSION))
load(b"\1\0\1", refused(LENGTH))
load(record([([0], [1]), ([0], [4])]), refused(STEP))
summed(memory(session_of(FIVE, []), [0] * TALLIES))

# 18. Damage: a byte after the table, a tally above the count of the cases, and one beyond the numbers.
poke(27, 1)
add([0], [1], refused(DAMAGED))
poke(27, 0)
tally(0, 1)
add([0], [1], refused(DAMAGED))
tally(0, 0)
tally(96, 1)
audit(refused(DAMAGED))
tally(96, 0)
audit()
poke(9000, 1)
tally(8400, 1)
summed(memory(session_of(FIVE, []), [0] * TALLIES))
# and a case that cannot be taken away. P8 makes all 96 tallies 1; case 2 seen 0 executes cell 2 alone, once, so that only its three wrong
# outputs, numbers 17 to 19, miss it and have 2.
ONE_STEP = ([2], [0])
add(*P8, "OK 0")
add(*ONE_STEP, "OK 1")
TWO_HELD = [1] * 17 + [2] * 3 + [1] * 76
audit()


def cannot_be_taken(number, value):
    """With such a tally of a number the second case is neither withdrawn nor amended, and nothing changes."""
    untrue = TWO_HELD[:number] + [value] + TWO_HELD[number + 1:]
    held = memory(session_of(FIVE, [P8, ONE_STEP]), untrue + [0] * (TALLIES - 96))
    tally(number, value)
    summed(held)
    withdraw(1, refused(DAMAGED))
    amend(1, *ONE_STEP, refused(DAMAGED))
    amend(1, [3], [0], refused(STEP))
    summed(held)
    tally(number, TWO_HELD[number])


cannot_be_taken(17, 0)  # its machine misses the case: the tally would be below 0
cannot_be_taken(70, 2)  # its machine reproduces the case: the tally would stay 2, above the one case left
# a tally may become 0, and it may stay the count of the cases left
tally(17, 1)
withdraw(1)
summed(memory(session_of(FIVE, [P8]), [1] * 17 + [0] + [1] * 78 + [0] * (TALLIES - 96)))

# 19. Retest: the first case with the same inputs, else the case at the position; refusals of the first, of the retest, then SLOT.
FIRST = record([([0, 1], [1, 1]), ([2], [0])])
AGAIN = record([([1], [3]), ([0, 1], [2, 2]), ([0, 1], [3, 3])])
step("RETEST", counted(FIRST) + counted(AGAIN) + four(0), "OK 2 0 1 2 2")
step("RETEST", counted(FIRST) + counted(AGAIN) + four(1), "OK 1 2 0")
step("RETEST", counted(FIRST) + counted(AGAIN) + four(2), refused(SLOT))
step("RETEST", counted(b"\1\0\1\0") + counted(b"\2\0\0") + four(9), refused(RECORD))
step("RETEST", counted(FIRST) + counted(b"\2\0\0") + four(9), refused(VERSION))

# 20. The judge: 1, 0, or 16 and the refusal, of the table, the record, STEP, NUMBER in that order.
step("JUDGE", counted(FIVE) + counted(record([P5])) + four(70), "OK 1")
step("JUDGE", counted(FIVE) + counted(record([P5, P6])) + four(71), "OK 0")
step("JUDGE", counted(FIVE) + counted(record([P5])) + four(95), "OK 0")
# number 2 makes state 0 give 2 under input 0, at the first step and again at the third
step("JUDGE", counted(FIVE) + counted(record([([0, 0, 0], [2, 2, 2])])) + four(2), "OK 1")
step("JUDGE", counted(FIVE) + counted(record([([0, 0, 0], [2, 2, 1])])) + four(2), "OK 0")
step("JUDGE", counted(FIVE) + counted(record([P5])) + four(96), f"OK {16 + FAULT}")
step("JUDGE", counted(FIVE) + counted(record([([3], [0])])) + four(96), f"OK {16 + STEP}")
step("JUDGE", counted(FIVE) + counted(b"\1\0\1\0") + four(96), f"OK {16 + RECORD}")
step("JUDGE", counted(FIVE[:-1]) + counted(b"\1\0\1\0") + four(96), f"OK {16 + LENGTH}")

# 21. An operation that the script's end cuts off.
wanted.append(f"STOP {len(script)}")
script.extend([NAMES.index("ADD"), 0, 2, 0])


def fits(want, line):
    pattern = re.escape(want).replace(re.escape("..."), ".*")
    return re.fullmatch(pattern, line) is not None


def main():
    second, folder = sys.argv[1], pathlib.Path(sys.argv[2])
    ran = subprocess.run([second, "run"], input=bytes(script), capture_output=True, check=True)
    lines = ran.stdout.decode().split("\n")[:-1]
    wrong = len(lines) != len(wanted)
    for k, (want, line) in enumerate(zip(wanted, lines)):
        if not fits(want, line):
            print(f"line {k + 1}: document 01: {want}\n    the second program: {line}")
            wrong = True
    if wrong:
        print(f"{len(wanted)} lines wanted, {len(lines)} printed")
        return 1
    (folder / "stdin").write_bytes(script)
    (folder / "stdout").write_text("\n".join(lines) + "\n")
    open_lines = sum("..." in w for w in wanted)
    print(f"{len(wanted)} lines agree, {open_lines} of them with words of the second program alone; {len(script)} bytes")
    return 0


if __name__ == "__main__":
    sys.exit(main())
