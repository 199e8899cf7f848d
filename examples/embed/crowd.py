"""Steps of a crowd by the library that crowd.h declares, with ctypes alone. Agents in, agents out.

    agents = crowd.agents(36)                # an array of 36 agents, all of their numbers 0
    agents[0].x, agents[0].radius = 12000, 500
    walls = crowd.segments([(-900, -600, 900, -600)])
    crowd.step(agents, walls)                # in place; raises Refused where the arrays are wrong

`crowd.agents_in(buffer)` takes any writable buffer of 15 numbers of 32 bits each an agent, as
`numpy.zeros((36, 15), numpy.int32)` or `array.array("i", bytes(36 * 60))`, and copies nothing.

CROWD_LIBRARY names the library, else libcrowd.so is looked for beside this file and in out/ there.
"""
import ctypes
import os

VERSION = 2
FINE_RING = 60
MARKS = ("start", "feasible", "fallback", "stopped", "crowded")
FIELDS = ("x", "y", "vel_x", "vel_y", "pref_x", "pref_y", "radius", "speed", "range", "most", "horizon",
          "wall_horizon", "weight", "mark", "relief")
COORDINATES = ("ax", "ay", "bx", "by")
CAUSES = (None, "no such ring", "too many agents", "agent out of range", "too many segments",
          "segment out of range", "agent on segment", "no such part")


class Agent(ctypes.Structure):
    _fields_ = [(name, ctypes.c_int32 if place < 6 else ctypes.c_uint32) for place, name in enumerate(FIELDS)]


class Segment(ctypes.Structure):
    _fields_ = [(name, ctypes.c_int32) for name in COORDINATES]


class Fault(ctypes.Structure):
    _fields_ = [(name, ctypes.c_uint32) for name in ("cause", "agent", "field", "segment")]


class Refused(ValueError):
    """The arrays are wrong, and nothing changed. `fault` has the first cause."""

    def __init__(self, fault):
        self.fault = fault
        words = CAUSES[fault.cause]
        if fault.cause == 3:
            words += f": agent {fault.agent}, {FIELDS[fault.field]}"
        elif fault.cause == 5:
            words += f": segment {fault.segment}, {COORDINATES[fault.field]}"
        elif fault.cause == 6:
            words += f": agent {fault.agent}, segment {fault.segment}"
        super().__init__(words)


def _find():
    here = os.path.dirname(os.path.abspath(__file__))
    places = [os.environ.get("CROWD_LIBRARY"), os.path.join(here, "libcrowd.so"), os.path.join(here, "out", "libcrowd.so")]
    found = [place for place in places if place and os.path.exists(place)]
    if not found:
        raise OSError("libcrowd.so isn't here: examples/embed/build makes it, and CROWD_LIBRARY may name it")
    return found[0]


_library = ctypes.CDLL(_find())
_library.crowd_version.restype = ctypes.c_uint32
_library.crowd_version.argtypes = []
_step = _library.crowd_step
_step.restype = ctypes.c_uint32
_step.argtypes = [ctypes.POINTER(Agent), ctypes.c_size_t, ctypes.POINTER(Segment), ctypes.c_size_t, ctypes.c_uint32,
                  ctypes.POINTER(Fault)]

assert _library.crowd_version() == VERSION
assert (ctypes.sizeof(Agent), ctypes.sizeof(Segment), ctypes.sizeof(Fault)) == (60, 16, 16)

# The library wants an address also where there is no item.
_NOBODY = (Agent * 1)()
_NOWHERE = (Segment * 1)()


def agents(count):
    """An array of so many agents, all of their numbers 0."""
    return (Agent * count)()


def agents_in(buffer):
    """The agents in a writable buffer of 15 numbers of 32 bits each, which is not copied."""
    view = memoryview(buffer).cast("B")
    return (Agent * (view.nbytes // ctypes.sizeof(Agent))).from_buffer(buffer)


def segments(ends):
    """Segments from a list of (ax, ay, bx, by)."""
    return (Segment * len(ends))(*[Segment(*each) for each in ends])


def step(agents, walls=_NOWHERE[:0], ring=0):
    """Makes of the agents the next frame, in place."""
    fault = Fault()
    status = _step(agents if len(agents) else _NOBODY, len(agents), walls if len(walls) else _NOWHERE, len(walls), ring,
                   ctypes.byref(fault))
    if status == 3:
        raise Refused(fault)
    if status == 1:
        raise MemoryError("crowd_step")
