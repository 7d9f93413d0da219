"""The C library, called through ctypes, on memory between two pages that nobody may touch: a stray access ends the process."""
import ctypes
import mmap
import subprocess

PAGE = mmap.PAGESIZE
NONE, READ, WRITE = 0, mmap.PROT_READ, mmap.PROT_READ | mmap.PROT_WRITE
UNSET = 0xa5

libc = ctypes.CDLL(None, use_errno=True)
libc.mmap.restype = ctypes.c_void_p
libc.mmap.argtypes = [ctypes.c_void_p, ctypes.c_size_t, ctypes.c_int, ctypes.c_int, ctypes.c_int, ctypes.c_long]
libc.munmap.argtypes = [ctypes.c_void_p, ctypes.c_size_t]
libc.mprotect.argtypes = [ctypes.c_void_p, ctypes.c_size_t, ctypes.c_int]
libc.memcmp.argtypes = [ctypes.c_void_p, ctypes.c_void_p, ctypes.c_size_t]


class Guarded:
    """A copy of some bytes, flush against the page behind it or against the page before it. It is written only while lent so."""

    def __init__(self, data, at_end):
        self.length = len(data)
        self.inner = -(-max(self.length, 1) // PAGE) * PAGE
        self.base = libc.mmap(None, self.inner + 2 * PAGE, NONE, mmap.MAP_PRIVATE | mmap.MAP_ANONYMOUS, -1, 0)
        if self.base in (None, ctypes.c_void_p(-1).value):
            raise MemoryError("no memory for %d bytes" % self.length)
        self.address = self.base + PAGE + (self.inner - self.length if at_end else 0)
        self.access = NONE
        self.fill(data)

    def allow(self, access):
        if access != self.access:
            libc.mprotect(self.base + PAGE, self.inner, access)
            self.access = access

    def fill(self, data):
        self.allow(WRITE)
        ctypes.memmove(self.address, bytes(data), self.length)

    def same(self, data):
        """Whether it holds these bytes, which are a bytearray."""
        view = (ctypes.c_char * self.length).from_buffer(data)
        return libc.memcmp(self.address, ctypes.addressof(view), self.length) == 0

    def read(self, at=0, size=None):
        return ctypes.string_at(self.address + at, self.length - at if size is None else size)

    def number(self, at=0, size=4):
        return int.from_bytes(self.read(at, size), "little")

    def close(self):
        libc.munmap(self.base, self.inner + 2 * PAGE)


# For each function: what it is lent, which of its buffers it may write, how many numbers come next, the buffers behind them, and the
# sizes of its out-parameters.
CARD = ("record", "settled", "waiting", "work")
FUNCTIONS = {
    "format": (CARD, CARD, 0, (), ()),
    "power": (CARD, ("record",), 1, (), ()),
    "put": (CARD, ("record", "work"), 1, ("block",), ()),
    "direct": (CARD, ("record", "settled", "waiting"), 1, ("block",), (4,)),
    "get": (CARD, (), 1, (), (4, 8)),
    "get_list": (CARD, ("blocks",), 0, ("addresses", "blocks"), (4,)),
    "commit": (CARD, ("record", "work"), 0, (), ()),
    "abandon": (CARD, ("record",), 0, (), ()),
    "sync": (CARD, ("record", "settled", "waiting"), 0, (), (4,)),
    "apply": (CARD, ("record", "settled", "waiting"), 0, (), (4,)),
    "recover": (CARD, ("record", "settled", "waiting"), 0, (), (4,)),
    "cut": (CARD, ("record", "settled"), 0, ("marks",), ()),
    "sync_cost": (CARD, (), 0, (), (4, 4, 4, 4)),
    "apply_cost": (CARD, (), 0, (), (4, 4, 4, 4)),
    "recover_cost": (CARD, (), 0, (), (4, 4, 4, 4)),
    "tally": (("settled",), (), 0, (), (8,)),
    "alike": (("settled", "other"), (), 0, (), (4,)),
}


class Library:
    """The seventeen functions of an archive, or of a shared object made of one."""

    def __init__(self, shared):
        linked = ctypes.CDLL(str(shared))
        self.functions, self.outs = {}, {}
        for call, (lent, _, numbers, more, outs) in FUNCTIONS.items():
            function = getattr(linked, "trapcard_" + call)
            buffer = [ctypes.c_void_p, ctypes.c_size_t]
            function.argtypes = (buffer * len(lent) + [ctypes.c_uint32] * numbers + buffer * len(more)
                                 + [ctypes.c_void_p] * len(outs))
            function.restype = ctypes.c_uint32
            self.functions[call] = function
            self.outs[call] = [Guarded(bytes([UNSET]) * size, True) for size in outs]

    def call(self, call, lent, numbers=()):
        """Lends the buffers (a dictionary by name) for one call. Its number, then its out-parameters."""
        first, written, _, more, _ = FUNCTIONS[call]
        pair = lambda name: (lent[name].address, lent[name].length)
        for name in first + more:
            lent[name].allow(WRITE if name in written else READ)
        words = [word for name in first for word in pair(name)] + list(numbers) + [word for name in more for word in pair(name)]
        for out in self.outs[call]:
            out.fill(bytes([UNSET]) * out.length)
            words.append(out.address)
        answer = self.functions[call](*words)
        return (answer, *(out.number(size=out.length) for out in self.outs[call]))


def link(archive, shared):
    """Makes a shared object of the whole archive."""
    subprocess.run(["gcc", "-shared", "-Wl,--whole-archive", archive, "-Wl,--no-whole-archive", "-o", shared], check=True)
    return Library(shared)
