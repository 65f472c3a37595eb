"""What the names and numbers of a trace mean, in words for a person (docs/SCENARIO.md, docs/INSTRUCTIONS.md)."""
from trace_text import CHANGED, flag_names

ROWS = {
    "add": "adds", "or": "ors", "adc": "adds with carry", "sbb": "subtracts with borrow", "and": "ands", "sub": "subtracts",
    "xor": "exclusive or", "cmp": "compares", "pushseg": "pushes a segment register", "popseg": "pops a segment register",
    "daa": "adjusts AL after a decimal addition", "das": "adjusts AL after a decimal subtraction", "aaa": "adjusts AX after an ASCII addition",
    "aas": "adjusts AX after an ASCII subtraction", "aam": "splits AL into digits", "aad": "joins digits into AL", "inc": "adds one",
    "dec": "subtracts one", "push": "pushes", "pop": "pops", "pusha": "pushes all general registers", "popa": "pops all general registers",
    "arpl": "adjusts the privilege level of a selector", "movsxd": "copies with its sign", "imul": "multiplies signed numbers",
    "ins": "reads a port into memory", "outs": "writes memory to a port", "jcc": "jumps where a condition holds", "test": "ands for the flags alone",
    "xchg": "exchanges", "mov": "copies", "movseg": "copies to or from a segment register", "lea": "computes an address", "nop": "does nothing",
    "pause": "does nothing, in a spinning loop", "cbw": "fills the accumulator's upper half with its sign", "cwd": "fills rDX with the accumulator's sign",
    "callf": "calls in another segment", "jmpf": "jumps to another segment", "pushf": "pushes the flags", "popf": "pops the flags",
    "sahf": "sets flags from AH", "lahf": "puts flags into AH", "movs": "copies elements of a string", "cmps": "compares elements of two strings",
    "stos": "fills elements of a string", "lods": "loads an element of a string", "scas": "compares the accumulator with elements of a string",
    "rol": "rotates left", "ror": "rotates right", "rcl": "rotates left through CF", "rcr": "rotates right through CF", "shl": "shifts left",
    "shr": "shifts right", "sar": "shifts right with the sign", "ret": "returns", "les": "loads a far pointer, ES", "lds": "loads a far pointer, DS",
    "lss": "loads a far pointer, SS", "lfs": "loads a far pointer, FS", "lgs": "loads a far pointer, GS", "enter": "makes a stack frame",
    "leave": "drops a stack frame", "retf": "returns to another segment", "iret": "returns from an interrupt", "int3": "breakpoint",
    "int": "software interrupt", "into": "interrupt on overflow", "xlat": "looks up a byte in a table", "loopne": "counts down, jumps while not equal",
    "loope": "counts down, jumps while equal", "loop": "counts down and jumps", "jcxz": "jumps where the count is 0", "in": "reads a port",
    "out": "writes a port", "call": "calls", "jmp": "jumps", "hlt": "halts the processor", "cmc": "turns CF", "clc": "clears CF", "stc": "sets CF",
    "cli": "holds interrupts off", "sti": "lets interrupts in", "cld": "clears DF, strings go up", "std": "sets DF, strings go down",
    "not": "turns each bit", "neg": "negates", "mul": "multiplies", "div": "divides", "idiv": "divides signed numbers", "sldt": "stores the selector of the LDT",
    "str": "stores the selector of the task register", "lldt": "loads the LDT register", "ltr": "loads the task register",
    "verr": "tests whether a segment can be read", "verw": "tests whether a segment can be written", "sgdt": "stores the GDT register",
    "sidt": "stores the IDT register", "lgdt": "loads the GDT register", "lidt": "loads the IDT register", "smsw": "stores the machine status word",
    "lmsw": "loads the machine status word", "invlpg": "forgets a page's translation", "swapgs": "exchanges the GS base", "lar": "reads a segment's access rights",
    "lsl": "reads a segment's limit", "clts": "clears CR0.TS", "invd": "drops the caches", "wbinvd": "writes back and drops the caches",
    "movcr": "copies to or from a control register", "wrmsr": "writes a model-specific register", "rdtsc": "reads the time-stamp counter",
    "rdmsr": "reads a model-specific register", "cpuid": "asks what the processor is", "cmov": "copies where a condition holds",
    "set": "1 where a condition holds, else 0", "bt": "tests a bit", "bts": "tests and sets a bit", "btr": "tests and clears a bit",
    "btc": "tests and turns a bit", "shld": "shifts left, filling from a register", "shrd": "shifts right, filling from a register",
    "cmpxchg": "compares with the accumulator and exchanges", "movzx": "copies with zeros", "movsx": "copies with its sign", "popcnt": "counts ones",
    "bsf": "finds the lowest one", "bsr": "finds the highest one", "xadd": "exchanges and adds", "cmpxchg8b": "compares 8 or 16 bytes and exchanges",
    "bswap": "turns the order of bytes",
}
# The rows behind which RIP needn't be behind the instruction.
JUMPS = frozenset("jcc jmp jmpf call callf ret retf iret loop loope loopne jcxz int int3 into".split())

VECTORS = {
    0: "#DE, divide error", 6: "#UD, invalid opcode", 8: "#DF, double fault", 10: "#TS, invalid TSS", 11: "#NP, segment not present",
    12: "#SS, stack fault", 13: "#GP, general protection", 14: "#PF, page fault", 17: "#AC, alignment check",
}
STATE_RULES = {
    1: "the flags have a bit that must be 0, or bit 1 isn't 1", 2: "CR0 has an unknown bit, bit 4 isn't 1, PG without PE, or NW without CD",
    3: "CR4 has an unknown bit", 4: "EFER has an unknown bit, or LMA doesn't fit", 5: "CR3 or CR8 is too large",
    6: "a segment's attributes or base, or a table's base, isn't valid", 7: "the privilege level isn't valid",
    8: "64-bit code with 32-bit operands", 9: "RIP has more than 32 bits outside 64-bit code", 20: "PE is set, and protected mode doesn't run yet",
}
HANDOFFS = {
    "callgate": "a call gate, selector {}", "taskgate": "a task gate, selector {}", "tss": "a task state segment, selector {}",
    "taskreturn": "the return from a nested task", "vm86": "a return into virtual-8086 mode, CS {}",
    "entry": "an entry of a page table that isn't RAM, at {}", "fetch": "a byte of an instruction that isn't in RAM, at {}",
}
RETIRES = [(1, "interrupts are let in behind the next instruction"), (2, "SS was loaded"), (4, "the processor halts"), (8, "a trap is due")]


def several(count, noun):
    return f"{count} {noun}" + ("" if count == 1 else "s")


def access_words(fields, done):
    """An access in words: `done` says whether it was made."""
    read, space, size = fields["direction"] == "r", fields["space"], int(fields["size"])
    number = int(fields["address"], 16)
    value = "" if read and not done else f" {fields['value']}"
    if space == "cpuid":
        return f"asks CPUID leaf {number >> 32:x}, subleaf {number & 0xFFFFFFFF:x}" + (f": {value.strip()}" if value else "")
    place = {"mem": "memory at", "port": "port", "msr": "the model-specific register"}[space] + f" {fields['address']}"
    if read:
        return f"reads {several(size, 'byte')} from {place}" + (f":{value}" if value else "")
    return f"writes{value} to {place}, {several(size, 'byte')}"


def io_words(line):
    fields = line.fields
    if fields["value"] == "no":
        verb = "reads" if fields["direction"] == "r" else "writes"
        words = f"{verb} the model-specific register {fields['address']}, which isn't there"
    else:
        words = access_words(fields, done=True)
    waits = int(fields["waits"])
    return words + (f", after it wasn't ready {several(waits, 'time')}" if waits else "")


def step_words(line, flags):
    """What a step changed; `flags` are the flags before it, where they are known."""
    words = []
    if line.steps > 1:
        words.append(several(line.steps, "element"))
    words += [f"{name} is {line.fields[name]}" for name in CHANGED if name in line.fields]
    now = int(line.fields["flags"], 16)
    if now != flags:
        words.append("flags " + (" ".join(flag_names(now)) or "none"))
    retire = int(line.fields.get("retire", "0"), 16)
    words += [meaning for bit, meaning in RETIRES if retire & bit]
    return ", ".join(words) or "nothing else changes"


def fault_words(line):
    vector = int(line.fields["vector"], 16)
    words = VECTORS.get(vector, f"exception {vector:x}h")
    if line.fields["code"] != "-":
        words += f", error code {line.fields['code']}"
    if line.fields["cr2"] != "-":
        words += f", at the linear address {line.fields['cr2']}"
    return words


def diverged_words(line):
    kept, wanted = line.fields["kept"], line.fields["wanted"]
    return f"access {line.fields['at']} was {kept}, and now " + ("the step ends before it" if wanted == "-" else f"is {wanted}")


def line_words(line, scenario_lines):
    """What a line that ends no finished step means; nothing where it speaks for itself."""
    fields = line.fields
    if line.kind == "io":
        return io_words(line)
    if line.kind == "fault":
        return fault_words(line)
    if line.kind == "exit":
        return f"intercepted: exit code {fields['code']}"
    if line.kind == "event":
        return f"a software interrupt, vector {fields['vector']}, for the caller to deliver"
    if line.kind == "handoff":
        return "left to the caller: " + HANDOFFS[fields["kind"]].format(fields["value"])
    if line.kind == "unhandled":
        return "no instruction of the table"
    if line.kind == "busfault":
        return "the device failed: " + access_words(fields, done=False)
    if line.kind == "pending":
        return "not ready yet: " + access_words(fields, done=False)
    if line.kind == "diverged":
        return diverged_words(line)
    if line.kind == "badstate":
        return "the registers are refused: " + STATE_RULES.get(int(fields["rule"]), "a rule of a valid state is broken")
    if line.kind == "notram":
        return f"the byte at {fields['address']} isn't RAM"
    if line.kind == "mem":
        return "".join(chr(byte) if 32 <= byte < 127 else "." for byte in bytes.fromhex(fields["bytes"]))
    if line.kind == "refused":
        number = int(fields["line"])
        return repr(scenario_lines[number - 1][:60]) if number <= len(scenario_lines) else ""
    return ""
