"""Writes masters.calls anew: a zone with 8,180 masters, all of them in use.

usage: vectors/masters_calls.py > vectors/masters.calls

No list of calls could make it with lines of a bearable length, so its bytes are set.
"""

MASTERS = 8180
FREE = 48  # bytes at the end
BYTES_A_LINE = 512


def number(value: int, width: int = 4) -> bytes:
    return value.to_bytes(width, "big")


def zone() -> bytes:
    """Blocks without data, by rising handle, then the free bytes."""
    first = 16 + 4 * MASTERS
    length = first + 4 * MASTERS + FREE
    header = number(length) + number(first) + number(MASTERS) + number(0)
    masters = b"".join(number(first + 4 * i + 4) for i in range(MASTERS))
    blocks = b"".join(number(0x80020010 + 4 * i) for i in range(MASTERS))
    return header + masters + blocks + number(FREE // 2) + bytes(FREE - 4)


def main() -> None:
    image = zone()
    print(f"""nafelode-vectors 3
# The most masters that a zone can have are 8,188. Made by masters_calls.py. Eight are added to 8,180, none to 8,181 (document 02, U3).

list masters_limit
buffer {len(image)} 0""")
    for at in range(0, len(image), BYTES_A_LINE):
        print("set", at, image[at:at + BYTES_A_LINE].hex().upper())
    new = 16 + 4 * MASTERS
    print(f"""call check
# {FREE} bytes are free, {FREE - 32} after the masters
call sum
call allocate_relocatable {FREE - 35}
call allocate_relocatable 4
call check
call walker_start
call size handle {new}
call size handle {new + 4}
call sum
# 8,181 of them stay, all in use; the other seven become free bytes
set 4 {number(new + 4).hex().upper()}
set 8 {number(MASTERS + 1).hex().upper()}
set 12 0000
set {new + 4} {(number(14) + bytes(24)).hex().upper()}
call check
call sum
call allocate_relocatable 0
call allocate_relocatable 32760""")


main()
