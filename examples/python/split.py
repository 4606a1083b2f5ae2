"""A line is split at the desk, and the wall applies the same edit from the message alone: the engine by ctypes.

    python3 examples/python/split.py [LIBRARY]

LIBRARY is the shared library's path, as in PREFIX/lib/libmulkefi.so.2; without it the system's own is looked for.
"""

import ctypes
import ctypes.util
import struct
import sys

INTERFACE = 2
LIBRARY_VERSION = 0x020000
VERSIONS = 1 * 256 + 2
MESSAGE_SIZE = 38
IMAGE_SIZE = 21135
WINDOW_SIZE = 2432
ANSWER_SIZE = 5
ANSWER_COUNT, ANSWER_IMAGE = 0, 1
SPLIT = 2
ACCEPTED = 0

# The mark of this start, which desk and wall share; the next start gets another.
MARK = 1


class Refused(Exception):
    """A call's refusal, by its number; the handbook says what each means."""


def load(path):
    """The library with its calls declared, or an error where it is of another build than this program."""
    library = ctypes.CDLL(path)
    u8s, u32, u64 = ctypes.c_char_p, ctypes.c_uint32, ctypes.c_uint64
    size, double, u32s = ctypes.c_size_t, ctypes.c_double, ctypes.POINTER(ctypes.c_uint32)
    calls = {
        "interface": [],
        "library_version": [],
        "versions": [],
        "test": [u8s, size],
        "desk_edit": [u8s, size, size, u32, u64, u32, u32, double, double, u8s, size, u8s, u32s],
        "wall_deliver": [u8s, size, size, u32, u64, u8s, size, u32s],
    }
    for name, arguments in calls.items():
        call = library["mulkefi_" + name]
        call.argtypes, call.restype = arguments, u32
        setattr(library, "mulkefi_" + name, call)
    if library.mulkefi_interface() != INTERFACE or library.mulkefi_versions() != VERSIONS:
        raise OSError("it has another interface or other formats' versions than this program")
    if library.mulkefi_library_version() < LIBRARY_VERSION:
        raise OSError("it is older than this program")
    return library


def image_of_line():
    """Points 1 (0, 0) and 2 (4, 0), line 3 between them, next id 4."""
    points = struct.pack(">IddB", 1, 0.0, 0.0, 0) + struct.pack(">IddB", 2, 4.0, 0.0, 0)
    line = struct.pack(">IBBB8Id", 3, 1, 0, 0, 1, 2, 0, 0, 0, 0, 0, 0, 0.0)
    rest = struct.pack(">BIHHH", 1, 4, 2, 1, 0) + points + line
    return struct.pack(">I", len(rest)) + rest


class Screen:
    """What a host keeps of a desk or a wall; the window is a desk's."""

    def __init__(self, library, image, mark):
        accept(library.mulkefi_test(image, len(image)))
        self.library, self.mark, self.count, self.size = library, mark, 0, len(image)
        self.buffer = ctypes.create_string_buffer(image, IMAGE_SIZE)
        self.window = ctypes.create_string_buffer(WINDOW_SIZE)
        self.answer = (ctypes.c_uint32 * ANSWER_SIZE)()

    def image(self):
        return self.buffer.raw[: self.size]

    def edit(self, operation, curve, x, y):
        """The message of an edit."""
        message = ctypes.create_string_buffer(MESSAGE_SIZE)
        call = self.library.mulkefi_desk_edit
        accept(call(self.buffer, IMAGE_SIZE, self.size, self.count, self.mark, operation, curve, x, y,
                    message, MESSAGE_SIZE, self.window, self.answer))
        self.take_answer()
        return message.raw

    def deliver(self, message):
        call = self.library.mulkefi_wall_deliver
        accept(call(self.buffer, IMAGE_SIZE, self.size, self.count, self.mark, message, len(message), self.answer))
        self.take_answer()

    def take_answer(self):
        self.count, self.size = self.answer[ANSWER_COUNT], self.answer[ANSWER_IMAGE]


def accept(answer):
    if answer != ACCEPTED:
        raise Refused(f"refused by {answer & 0xffff}")


def split(library):
    image = image_of_line()
    desk, wall = Screen(library, image, MARK), Screen(library, image, MARK)
    wall.deliver(desk.edit(SPLIT, 3, 1.0, 3.0))
    same = desk.image() == wall.image()
    print(f"desk: count {desk.count}, {desk.size} bytes")
    print(f"wall: count {wall.count}, {wall.size} bytes")
    print(f"same image: {'yes' if same else 'no'}")
    return 0 if same else 1


def main():
    if len(sys.argv) > 2:
        print("usage: split.py [LIBRARY]", file=sys.stderr)
        return 2
    path = sys.argv[1] if len(sys.argv) == 2 else ctypes.util.find_library("mulkefi")
    if path is None:
        print("split.py: the system has no library mulkefi: install it, or name its path", file=sys.stderr)
        return 1
    try:
        return split(load(path))
    except (OSError, AttributeError) as error:
        print(f"split.py: {path} can't be used: {error}", file=sys.stderr)
    except Refused as refusal:
        print(refusal)
    return 1


if __name__ == "__main__":
    sys.exit(main())
