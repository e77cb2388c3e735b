"""Gives a module of WebAssembly 32-bit addresses in the place of 64-bit ones, which not every engine takes. An address is wrapped where the memory is used, and all else
stays as it was, byte for byte: in variables, parameters and the memory itself addresses stay numbers of 64 bits.

Between an address and the instruction that uses it may stand a value, or a size: it is put by in a variable of its own while the address is wrapped. What isn't
known here is refused: imports, a table with 64-bit indices, other instructions."""

from typing import Any, Callable, Dict, Iterator, List, Tuple

I32, I64, F32, F64 = 0x7F, 0x7E, 0x7D, 0x7C
WRAP, EXTEND_UNSIGNED, EXTEND_SIGNED, GET, SET, I32_CONST, I64_CONST, END = b"\xa7", b"\xad", b"\xac", b"\x20", b"\x21", b"\x41", b"\x42", b"\x0b"
CUSTOM, TYPES, IMPORTS, FUNCTIONS, TABLES, MEMORIES, CODE, DATA = 0, 1, 2, 3, 4, 5, 10, 11
OF_64_BITS = 4

# The instructions that use the memory; of those that store, with the type of the value. Those of several bytes begin with one byte.
LOADS, SIZE, GROW, SEVERAL, COPY, FILL = range(0x28, 0x36), 0x3F, 0x40, 0xFC, 10, 11
STORES = {0x36: I32, 0x37: I64, 0x38: F32, 0x39: F64, 0x3A: I32, 0x3B: I32, 0x3C: I64, 0x3D: I64, 0x3E: I64}

# How many numbers follow an instruction, or how many bytes; a branch by a table has a list, and so has a choice of a type.
BARE = (0x00, 0x01, 0x05, 0x0B, 0x0F, 0x1A, 0x1B, *range(0x45, 0xC5))
ONE_NUMBER = (0x02, 0x03, 0x04, 0x0C, 0x0D, 0x10, *range(0x20, 0x25), SIZE, GROW, 0x41, 0x42)
NUMBERS = {**dict.fromkeys(BARE, 0), **dict.fromkeys(ONE_NUMBER, 1), 0x11: 2}
BYTES, BRANCHES, CHOICE = {0x43: 4, 0x44: 8}, 0x0E, 0x1C


class Refused(ValueError):
    """The module has what isn't known here."""


def encode(number: int) -> bytes:
    """A number that isn't negative, as modules have it: seven bits a byte, the least first."""
    return bytes([number]) if number < 0x80 else bytes([number & 0x7F | 0x80]) + encode(number >> 7)


def encode_address(number: int) -> bytes:
    """A constant address of 32 bits, whose highest bit of seven is no sign."""
    if number >> 31:
        raise Refused("a part of the memory is set beyond 32 bits")
    digits = encode(number)
    return digits[:-1] + bytes([digits[-1] | 0x80, 0]) if digits[-1] & 0x40 else digits


def join(parts: List[bytes]) -> bytes:
    """Parts, with how many they are before them."""
    return encode(len(parts)) + b"".join(parts)


def with_size(data: bytes) -> bytes:
    """Bytes, with how many they are before them."""
    return encode(len(data)) + data


class Reader:
    """A place in a module's bytes."""

    def __init__(self, data: bytes) -> None:
        self.data, self.at = data, 0

    def take(self, count: int) -> bytes:
        """The next bytes."""
        self.at += count
        return self.data[self.at - count : self.at]

    def number(self) -> int:
        """The number here; of one with a sign its bits."""
        byte = self.take(1)[0]
        return byte if byte < 0x80 else byte & 0x7F | self.number() << 7

    def sized(self) -> bytes:
        """The bytes here that have their number before them."""
        return self.take(self.number())

    def repeat(self, read: Callable[[], Any]) -> List[Any]:
        """As many things as the number here says."""
        return [read() for _ in range(self.number())]


def read_sections(module: bytes) -> Iterator[Tuple[int, bytes]]:
    """The parts of a module, each with its kind."""
    reader = Reader(module)
    if reader.take(8) != b"\0asm\1\0\0\0":
        raise Refused("it is no module")
    while reader.at < len(module):
        yield reader.take(1)[0], reader.sized()


def count_parameters(types: bytes) -> List[int]:
    """How many parameters each type of function has."""
    reader = Reader(types)
    return [len(parameters) for _, parameters, _ in reader.repeat(lambda: (reader.take(1), reader.sized(), reader.sized()))]


class Body:
    """A function's body that is written anew, of a function with so many parameters."""

    def __init__(self, code: bytes, parameters: int) -> None:
        self.reader = Reader(code)
        self.groups = self.reader.repeat(lambda: (self.reader.number(), self.reader.take(1)))
        self.first = parameters + sum(count for count, _ in self.groups)
        self.beside: Dict[int, int] = {}

    def put_by(self, kind: int) -> Tuple[bytes, bytes]:
        """The instructions that put a value of a type into a variable of its own, and that get it back."""
        which = encode(self.beside.setdefault(kind, self.first + len(self.beside)))
        return SET + which, GET + which

    def skip(self, code: int) -> None:
        """Reads what follows an instruction."""
        if code in (BRANCHES, CHOICE):
            self.reader.repeat(self.reader.number)
        if code not in (*NUMBERS, *BYTES, BRANCHES, CHOICE):
            raise Refused(f"the instruction {code:#x} isn't known")
        self.reader.take(BYTES.get(code, 0))
        for _ in range(NUMBERS.get(code, code == BRANCHES)):
            self.reader.number()

    def needs_of_several(self) -> bytes:
        """What an instruction of several bytes needs before it, which is read."""
        which = self.reader.number()
        if which < 8:
            return b""
        if which not in (COPY, FILL):
            raise Refused(f"the instruction {SEVERAL:#x} {which} isn't known")
        self.reader.take(2 if which == COPY else 1)
        (put_size, size), (put_other, other) = self.put_by(I64), self.put_by(I32)
        return put_size + (WRAP if which == COPY else b"") + put_other + WRAP + other + size + WRAP

    def lower_next(self) -> bytes:
        """The next instruction, with what its address needs; nothing at the end."""
        begin = self.reader.at
        if begin == len(self.reader.data):
            return b""
        code = self.reader.take(1)[0]
        if code in LOADS or code in STORES:
            put, value = self.put_by(STORES[code]) if code in STORES else (b"", b"")
            return put + WRAP + value + bytes([code]) + self.lower_place()
        front = self.needs_of_several() if code == SEVERAL else WRAP if code == GROW else b""
        if code != SEVERAL:
            self.skip(code)
        # (a memory that can't grow says -1)
        return front + self.reader.data[begin : self.reader.at] + {SIZE: EXTEND_UNSIGNED, GROW: EXTEND_SIGNED}.get(code, b"")

    def lower_place(self) -> bytes:
        """How an address is aligned, and how far behind it the memory is used: that is written anew, since linkers write it with room for 64 bits."""
        aligned, behind = self.reader.number(), self.reader.number()
        if aligned > 0x3F or behind >> 32:
            raise Refused("memory is used beyond 32 bits, or another one than the first")
        return encode(aligned) + encode(behind)

    def lower(self) -> bytes:
        """The whole body."""
        code = b"".join(iter(self.lower_next, b""))
        return join([encode(count) + kind for count, kind in [*self.groups, *((1, bytes([kind])) for kind in self.beside)]]) + code


def lower_data(data: bytes) -> bytes:
    """The parts of the memory that are set at first, each at a constant address."""
    reader = Reader(data)

    def lower_part() -> bytes:
        if reader.take(2) != b"\0" + I64_CONST:
            raise Refused("a part of the memory isn't set at a constant address")
        address = encode_address(reader.number())
        if reader.take(1) != END:
            raise Refused("the address of a part of the memory is reckoned")
        return b"\0" + I32_CONST + address + END + with_size(reader.sized())

    return join(reader.repeat(lower_part))


def lower_code(code: bytes, parameters: List[int]) -> bytes:
    """The bodies of functions that have so many parameters each."""
    reader = Reader(code)
    return join([with_size(Body(body, count).lower()) for body, count in zip(reader.repeat(reader.sized), parameters)])


def lower_addresses(module: bytes) -> bytes:
    """The module with 32-bit addresses; what is told of it beside its code is left out."""
    found, made = dict(read_sections(module)), module[:8]
    memory, tables = found[MEMORIES], found.get(TABLES, bytes(3))
    if IMPORTS in found or tables[2] & OF_64_BITS or memory[0] != 1 or not memory[1] & OF_64_BITS:
        raise Refused("it has imports, a table with 64-bit indices, or not one memory with 64-bit addresses")
    functions, counts = Reader(found[FUNCTIONS]), count_parameters(found[TYPES])
    found[CODE] = lower_code(found[CODE], [counts[kind] for kind in functions.repeat(functions.number)])
    found[MEMORIES] = memory[:1] + bytes([memory[1] & ~OF_64_BITS]) + memory[2:]
    if DATA in found:
        found[DATA] = lower_data(found[DATA])
    return made + b"".join(bytes([kind]) + with_size(found[kind]) for kind, _ in read_sections(module) if kind != CUSTOM)
