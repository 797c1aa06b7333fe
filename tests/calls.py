"""Makes crates/calls/stdout: python3 tests/calls.py > crates/calls/stdout

Each line is a call and what it must give by document 01. Refusals come from its table by the rule below; what an accepted call gives is
worked out by hand from the sentence quoted above it. A machine is its mode, PC and SR, and the changes of a call are the registers and
longs that it leaves otherwise than given: all that is not named is as it was.
"""

LARGEST = 4294967295
STATE = "state as given"
MEMORY = "memory as given"


def refusal(length, sr):
    """Their number, in the order in which "Refusals of a call" tries them; 0 for none. Reset has no SR."""
    if length % 4 != 0:
        return 1
    if length < 1024 or length > 16777216:
        return 2
    if sr is not None and sr & ~0x3F3:
        return 3
    return 0


def text(mode, pc, sr):
    return "%s, pc %08x, sr %08x" % (mode, pc, sr)


def slot(target):
    return "slot, target %08x" % target


def reset(length=1024):
    # "PC is the long at 0, R15 the long at 4, SR H'F0, mode running." "refused, it returns the blank one (registers zero, SR H'F0,
    # stopped for reason 2)"
    number = refusal(length, None)
    if number:
        gave = "refused %d, steps 0, %s, state blank" % (number, text("stopped 2", 0, 0xF0))
    else:
        gave = "accepted, steps 0, %s, r15 00000400" % text("running", 0x200, 0xF0)
    print("reset over %d bytes: %s, %s" % (length, gave, MEMORY))


def call(name, given, steps, after, changes=MEMORY, length=1024):
    number = refusal(length, given[2])
    if number:
        # "state as given, memory untouched, 0 steps"
        gave = "refused %d, steps 0, %s, %s, %s" % (number, text(*given), STATE, MEMORY)
    else:
        gave = "accepted, steps %d, %s, %s" % (steps, text(*after), changes)
    print("%s from %s over %d bytes: %s" % (name, text(*given), length, gave))


def nothing(name, given):
    # "Asleep or stopped: nothing happens and no step is counted." A run with budget 0 takes 0 steps.
    call(name, given, 0, given, "%s, %s" % (STATE, MEMORY))


def to_sleep():
    print("MOV #5,R0; SLEEP")
    started, first, asleep = ("running", 0x200, 0xF0), ("running", 0x202, 0xF0), ("asleep", 0x204, 0xF0)
    five = "r0 00000005, " + MEMORY
    reset()
    # "PC then moves .. to the next word". "SLEEP leaves PC at the next instruction .. and the mode asleep."
    call("step", started, 1, first, five)
    call("step", first, 1, asleep)
    nothing("step", asleep)
    nothing("run %d" % LARGEST, asleep)
    # "The run takes exactly that many steps, fewer only when the machine sleeps or stops."
    nothing("run 0", started)
    call("run 1", started, 1, first, five)
    call("run %d" % LARGEST, started, 2, asleep, five)


def from_stopped():
    print("the same, stopped")
    nothing("step", ("stopped 2", 0, 0xF0))
    nothing("run %d" % LARGEST, ("stopped 2", 0, 0xF0))
    nothing("step", ("stopped 1", 0x200, 0xF0))
    nothing("run 2", ("stopped 3", 0x200, 0xF0))


def statuses():
    print("the same, with three values of SR")
    five = "r0 00000005, " + MEMORY
    for sr in 0x3F3, 0x4F0, 0xFFFFFFFF:
        running = "running", 0x200, sr
        call("step", running, 1, ("running", 0x202, sr), five)
        nothing("run 0", running)
        call("run 2", running, 2, ("asleep", 0x204, sr), five)
        # "PC then moves to the target, mode running, if the machine was in a slot"
        call("step", (slot(0x206), 0x200, sr), 1, ("running", 0x206, sr), five)
        nothing("step", ("asleep", 0x200, sr))
        nothing("run 2", ("asleep", 0x200, sr))
        nothing("step", ("stopped 1", 0x200, sr))


def lengths():
    # "Length 1,022 is 1; length 0 and 1,020 are 2".
    assert [refusal(length, 0x4F0) for length in (1022, 0, 1020, 1024, 16777216)] == [1, 2, 2, 3, 3]
    print("the same, cut short")
    for length in 1022, 0, 1020:
        reset(length)
        for name in "step", "run 2":
            for sr in 0xF0, 0x4F0:
                call(name, ("running", 0x200, sr), 0, None, length=length)


def before_a_slot():
    print("BRA H'206; MOV #5,R0; SLEEP at H'206")
    # "BRA .. lead to A + 4 + 2 x signed displacement". "PC moves on by 2 and the mode becomes "in a slot" with the target."
    target = 0x200 + 4 + 2 * 1
    started, cut, there = ("running", 0x200, 0xF0), (slot(target), 0x202, 0xF0), ("running", target, 0xF0)
    five = "r0 00000005, " + MEMORY
    reset()
    call("run 1", started, 1, cut)
    nothing("run 0", cut)
    call("step", cut, 1, there, five)
    call("step", there, 1, ("asleep", target + 2, 0xF0))
    call("run 2", started, 2, there, five)


def exceptions():
    print("H'FFFF, which is undefined, with VBR H'80 and R15 H'400")

    def enters(mode, pc, saved, to):
        # "SR goes to R15-4, the saved PC to R15-8, R15 falls by 8, then PC becomes the long at VBR + 4 x number .., and the mode is
        # running. SR keeps its value."
        changes = "r15 000003f8, long at 000003f8 %08x, long at 000003fc 000000f0" % saved
        call("step", (mode, pc, 0xF0), 1, ("running", to, 0xF0), changes)

    # "general illegal 4, illegal slot 6, address error 9": the longs at H'90, H'98 and H'A4 are H'300, H'310 and H'320. "Saved PC: in a
    # slot, always the target. Otherwise: the fetch address for a fetch error and for a general illegal instruction".
    enters("running", 0x200, 0x200, 0x300)
    enters(slot(0x206), 0x200, 0x206, 0x310)
    enters("running", 0x201, 0x201, 0x320)


def stops():
    def stop(reason):
        # "The machine stops, with memory and registers as before the step". "A step that .. stops counts as one."
        call("step", ("running", 0x200, 0xF0), 1, ("stopped %d" % reason, 0x200, 0xF0))

    # "reason 1: R15 is not a multiple of 4, or a store would fall outside"
    print("the same, with R15 H'402")
    stop(1)
    nothing("step", ("stopped 1", 0x200, 0xF0))
    # "else reason 2: the vector's address is misaligned or outside": H'3F0 + 4 x 4 is H'400.
    print("the same, with VBR H'3F0")
    stop(2)
    print("the same, with both")
    stop(1)


for part in to_sleep, from_stopped, statuses, lengths, before_a_slot, exceptions, stops:
    part()
