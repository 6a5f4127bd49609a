"""The words of rv_insn's tests, which GNU as makes anew, and what instructions do in rv_exec's, by the interpreter."""
import re

import guests
from interpreter import FETCH, MASK, RAM, Machine, signed

CRATES = guests.TESTS.parents[2]


def tables(path):
    """The rows of each table of a test module, as lists of words and numbers."""
    text = (CRATES / path).read_text()
    found = {}
    for name, body in re.findall(r"const (\w+): \[.*?; \d+\] = \[(.*?)\n\];", text, re.S):
        rows, depth, row = [], 0, ""
        for character in re.sub(r"//.*", "", body):
            depth += (character in "([{") - (character in ")]}")
            row += character
            if depth == 0 and character == ")":
                rows.append([field(word) for word in re.findall(r"-?\b(?:0x[0-9a-f_]+|\d[\d_]*)\b|[A-Z]\w+|true|false", row)])
                row = ""
        found[name] = rows
    return found


def field(word):
    try:
        return int(word.replace("_", ""), 0)
    except ValueError:
        return word


def last(row):
    """A row without the names of types before its variants."""
    kinds = ("Test", "Width", "ImmOp", "ShiftOp", "Op", "WordOp", "CsrOp", "CsrFrom", "Insn", "Secure", "Reg")
    return [entry for entry in row if entry not in kinds]


LOADS = {("B1", "true"): "lb", ("B2", "true"): "lh", ("B4", "true"): "lw", ("B8", "true"): "ld",
         ("B1", "false"): "lbu", ("B2", "false"): "lhu", ("B4", "false"): "lwu"}
STORES = {"B1": "sb", "B2": "sh", "B4": "sw", "B8": "sd"}
SHIFTS = {"Left": "sll", "Right": "srl", "RightSigned": "sra"}
CSRS = {"Write": "csrrw", "Set": "csrrs", "Clear": "csrrc"}
SECURE = {"Launch": (0, 0), "Call": (1, 0), "Ret": (2, 0), "Evict": (3, 0), "Ident": (4, 0), "Caller": (5, 0),
          "Offerer": (6, 0), "Sget": (7, 0), "Sset": (0, 1)}


def low(name):
    return name.lower()


def assembly(table, row):
    """The assembly of a row of rv_insn's tests, whose first field is the word."""
    f = last(row)[1:]
    if table in ("LUI", "AUIPC"):
        return f"{low(table)} x{f[0]}, {f[1] >> 12 & 0xFFFFF}"
    if table == "JAL":
        return f"jal x{f[0]}, . + {f[1]}"
    if table == "JALR":
        return f"jalr x{f[0]}, {f[2]}(x{f[1]})"
    if table == "BRANCHES":
        return f"b{low(f[0])} x{f[1]}, x{f[2]}, . + {f[3]}"
    if table == "LOADS":
        return f"{LOADS[f[0], f[1]]} x{f[2]}, {f[4]}(x{f[3]})"
    if table == "STORES":
        return f"{STORES[f[0]]} x{f[2]}, {f[3]}(x{f[1]})"
    if table == "IMMEDIATES":
        name = {"Sltu": "sltiu"}.get(f[0], low(f[0]) + "i")
        return f"{name} x{f[1]}, x{f[2]}, {f[3]}"
    if table == "ADDIW":
        return f"addiw x{f[0]}, x{f[1]}, {f[2]}"
    if table in ("SHIFTS", "WORD_SHIFTS"):
        return f"{SHIFTS[f[0]]}i{'w' if table == 'WORD_SHIFTS' else ''} x{f[1]}, x{f[2]}, {f[3]}"
    if table in ("REGISTERS", "WORD_REGISTERS"):
        return f"{low(f[0])}{'w' if table == 'WORD_REGISTERS' else ''} x{f[1]}, x{f[2]}, x{f[3]}"
    if table == "FENCE":
        return f".insn i 0x0f, 0, x{f[2]}, x{f[1]}, {signed(f[0], 12)}"
    if table == "CSR":
        return f"{CSRS[f[0]]}{'i' if f[2] == 'Number' else ''} x{f[4]}, {f[1]}, {'' if f[2] == 'Number' else 'x'}{f[3]}"
    if table == "SECURE":
        function, selector = SECURE[f[0]]
        rd, rs1, rs2 = (f[1:] + [0, 0, 0])[:3]
        return f".insn r 0x0b, {function}, {selector}, x{rd}, x{rs1}, x{rs2}"
    return {"Ecall": "ecall", "Ebreak": "ebreak", "Sret": "sret", "Wfi": "wfi"}.get(
        f[0], f"sfence.vma x{f[1]}, x{f[2]}" if f[0] == "SfenceVma" else "")


def words_of(lines):
    image = guests.assembled_text("\n".join(["    .option norelax", "_start:"] + lines) + "\n")
    return [int.from_bytes(image[at:at + 4], "little") for at in range(0, len(image), 4)]


def check_words(fault):
    rows = [(table, row) for table, rows in tables("rv_insn/src/tests.rt").items() if table != "NONE" for row in rows]
    texts = [assembly(table, row) for table, row in rows]
    for (table, row), text, word in zip(rows, texts, words_of(texts)):
        if row[0] != word:
            fault(f"rv_insn {table}: {row[0]:08x} isn't {text}, which is {word:08x}")
    return len(rows)


def executed(text, left, right):
    """The machine after an instruction that stands at the start of RAM, with x5 and x6 as given."""
    machine = Machine(words_of([text])[0].to_bytes(4, "little"), 16)
    machine.hart.x[5], machine.hart.x[6] = left & MASK, right & MASK
    machine.execute(machine.load(RAM, 4, FETCH))
    return machine


def check_values(fault):
    count = 0
    for table, rows in tables("rv_exec/src/tests/tables.rt").items():
        for row in rows:
            f = last(row)
            word = "w" if table.startswith("WORD") else ""
            if table in ("REGISTERS", "WORDS"):
                done = executed(f"{low(f[0])}{word} x1, x5, x6", f[1], f[2]).hart.x[1]
            elif table == "IMMEDIATES":
                name = {"Sltu": "sltiu"}.get(f[0], low(f[0]) + "i")
                done = executed(f"{name} x1, x5, {f[2]}", f[1], 0).hart.x[1]
            elif table in ("SHIFTS", "WORD_SHIFTS"):
                done = executed(f"{SHIFTS[f[0]]}i{word} x1, x5, {f[2]}", f[1], 0).hart.x[1]
            elif table == "BRANCHES":
                done = "true" if executed(f"b{low(f[0])} x5, x6, . + 16", f[1], f[2]).hart.pc == RAM + 16 else "false"
            elif table == "LOADS":
                size = {"B1": 1, "B2": 2, "B4": 4, "B8": 8}[f[0]]
                number = f[2] & (1 << 8 * size) - 1
                done = signed(number, 8 * size) & MASK if f[1] == "true" else number
            else:
                continue
            count += 1
            if done != f[-1]:
                fault(f"rv_exec {table}: {row} gives {done}")
    return count
