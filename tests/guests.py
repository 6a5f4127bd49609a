"""Guests in assembly, assembled by GNU as, and the test modules that are made of them."""
import collections
import hashlib
import pathlib
import re
import shutil
import subprocess
import tempfile
import textwrap

from interpreter import Machine

HERE = pathlib.Path(__file__).resolve().parent
TESTS = HERE.parent / "crates" / "bn_front" / "src" / "tests"
PREFIXES = ("riscv64-unknown-elf-", "riscv64-linux-gnu-")
# a trace of more lines than this is compared by its digest, since the prover reads it slowly
LONG = 200
# folders of guests that stand in one test module each: what they are, and the test's name
FOLDERS = {
    "launches": (
        "Guests that launch modules: what a module is known by, and each refusal in its order.",
        "modules_are_launched_or_refused"),
    "owned_pages": (
        "Guests that reach for the pages of modules, as programs and by their page tables.",
        "pages_of_modules_are_their_own"),
    "switches": (
        "Guests that call modules, whose modules call and return, are stopped, go on and are evicted.",
        "modules_are_called_stopped_resumed_and_evicted"),
    "storing": (
        "Guests whose modules keep words by their identities, without a store beside the machine.",
        {"all_words": "a_module_keeps_32_words",
         "full": "a_module_of_a_65th_identity_keeps_no_words",
         "index_too_large": "a_word_that_is_not_there_is_not_stored",
         "launched_again": "a_module_that_is_launched_again_has_its_words",
         "outside": "code_outside_the_modules_keeps_no_words",
         "registers": "words_go_by_any_registers",
         "stopped": "a_module_that_is_stopped_stores_when_it_goes_on",
         "two_modules": "modules_do_not_reach_the_words_of_others",
         "user_mode": "a_module_of_mode_u_keeps_words"}),
    "zeroing": (
        "Guests one of whose modules is zeroed before an event: while it rests nobody can tell.",
        # a test for each guest, since each has many runs
        {"evicted": "a_zeroed_module_is_evicted_as_others_are",
         "idle": "a_module_is_zeroed_between_its_calls",
         "limit": "zeroing_beside_the_limit_is_not_told",
         "kept_words": "a_zeroed_module_keeps_its_words",
         "offered": "shared_pages_are_not_zeroed",
         "own_root": "a_zeroed_page_is_no_root",
         "own_tables": "a_zeroed_page_is_no_table",
         "timer": "a_stopped_module_is_zeroed",
         "waiting": "a_waiting_module_is_zeroed",
         "wrong_resumption": "a_zeroed_module_keeps_its_pc_and_mode"}),
    "harts": (
        "Guests of several harts, with devices, each run by a script.",
        {"devices": "devices_reach_the_pages_that_nobody_owns",
         "four_harts": "four_harts_take_turns",
         "ipis": "software_interrupts_reach_the_harts_that_are_named",
         "keys": "waiting_keys_interrupt_the_first_hart_alone",
         "launched_elsewhere": "a_launch_takes_pages_from_all_harts",
         "resumed_elsewhere": "any_hart_resumes_a_module",
         "resumed_once": "of_two_harts_at_a_stopped_module_one_resumes_it",
         "starts": "a_hart_is_started_as_at_boot",
         "stored_elsewhere": "words_are_those_of_the_module_on_any_hart",
         "two_modules": "a_module_that_runs_elsewhere_is_busy"}),
}
# as many events as a guest of a folder may have
ALL = 60_000


def tool(name, *words):
    """What a tool of GNU's binutils prints, as it is installed."""
    prefix = next((prefix for prefix in PREFIXES if shutil.which(prefix + name)), PREFIXES[0])
    return subprocess.run([prefix + name, *words], check=True, capture_output=True, text=True).stdout


def assembled(name, *options):
    """The bytes of a guest, by more options of the assembler."""
    return assembled_text((HERE / "guests" / f"{name}.S").read_text(), *options)


def assembled_text(text, *options):
    """The bytes of assembly, which begins at the start of RAM."""
    with tempfile.TemporaryDirectory() as folder:
        base = pathlib.Path(folder) / "guest"
        pathlib.Path(f"{base}.S").write_text(text)
        tool("as", "-march=rv64i_zicsr", *options, "-I", str(HERE / "guests"), "-o", f"{base}.o", f"{base}.S")
        tool("ld", "-Ttext=0x80000000", "-e", "_start", "-o", f"{base}.elf", f"{base}.o")
        tool("objcopy", "-O", "binary", f"{base}.elf", f"{base}.img")
        return pathlib.Path(f"{base}.img").read_bytes()


def listed(image):
    """The disassembly of code at the start of RAM, a text a word."""
    # a word whose low five bits are set would begin a longer instruction
    is_short = [image[at] & 3 == 3 and image[at] & 31 != 31 for at in range(0, len(image), 4)]
    short = b"".join(image[4 * i:4 * i + 4] if is_one else bytes(4) for i, is_one in enumerate(is_short))
    with tempfile.NamedTemporaryFile(suffix=".img") as file:
        file.write(short)
        file.flush()
        text = tool("objdump", "-D", "-b", "binary", "-m", "riscv:rv64", "-M", "no-aliases,numeric",
                    "--adjust-vma=0x80000000", "-z", file.name)
    found = {int(at, 16): line for at, line in re.findall(r"^ *([0-9a-f]+):\t[0-9a-f]+ *\t(.*)$", text, re.M)}
    # a word that doesn't end in bits 11 would be two compressed instructions, which the machine doesn't have
    lines = [found[0x80000000 + 4 * i] if is_one else "no instruction" for i, is_one in enumerate(is_short)]
    return [re.sub(r"\t", " ", line).split(" #")[0].replace("unimp", "csrrw x0,cycle,x0").strip() for line in lines]


def settings(name):
    """The first comment of a guest, and its pages of RAM."""
    text = (HERE / "guests" / f"{name}.S").read_text()
    about = re.match(r"((?:# .*\n)+?)# ram (\d+)(?: steps \d+)?\n", text)
    return about.group(1).replace("# ", ""), int(about.group(2))


def steps(name):
    """The events of a guest that doesn't shut down, or more than it needs."""
    text = (HERE / "guests" / f"{name}.S").read_text()
    found = re.search(r"^# ram \d+ steps (\d+)$", text, re.M)
    return int(found.group(1)) if found else ALL


def harts(name):
    """How many harts a guest has: one where it doesn't say."""
    text = (HERE / "guests" / f"{name}.S").read_text()
    found = re.search(r"^# harts (\d)$", text, re.M)
    return int(found.group(1)) if found else 1


def script(name):
    """The lines of a guest's script."""
    text = (HERE / "guests" / f"{name}.S").read_text()
    return re.findall(r"^#\$ (.*)$", text, re.M)


def pattern_of(line):
    """The pattern of a line by hand: N stands for the number of an event, P for an address, I for
    an identity."""
    spelled = {"N": r"\d+", "P": "[0-9a-f]{16}", "I": "[0-9a-f]{64}"}
    return " ".join(spelled.get(field, field) for field in line.split(" "))


def lines_by_hand(name):
    """The trace without its end as it was derived by hand, each line as a pattern."""
    text = (HERE / "guests" / f"{name}.S").read_text()
    return [pattern_of(line) for line in re.findall(r"^#: (.*)$", text, re.M)]


# a run of a guest in which a module is zeroed before an event; it has so many lines of the run in
# which none is, or all of them where this is None, and behind them these by hand and its end
Zeroed = collections.namedtuple("Zeroed", "module event kept rest")


def zeroings(name):
    """The runs of a guest in which a module is zeroed: `# zeroed M@K keeps COUNT`, where the lines
    behind these follow by hand after `#|`, or `# zeroed M@K keeps all`."""
    text = (HERE / "guests" / f"{name}.S").read_text()
    found = re.findall(r"^# zeroed (\d+)@(\d+) keeps (all|\d+)\n((?:#\| .*\n)*)", text, re.M)
    return [Zeroed(int(module), int(event), None if kept == "all" else int(kept),
                   [pattern_of(line[3:]) for line in rest.splitlines()])
            for module, event, kept, rest in found]


def parts(image):
    """A guest's code, which ends before byte 1024, as words, and the numbers behind it with their offsets."""
    code = image[:1024]
    words = [int.from_bytes(code[at:at + 4], "little") for at in range(0, len(code), 4)]
    while words[-1] == 0:
        words.pop()
    numbers = [(at, int.from_bytes(image[at:at + 8], "little")) for at in range(1024, len(image), 8)]
    return words, [pair for pair in numbers if pair[1]]


def module(name):
    """The test module of a guest: its code and tables, and its trace as the interpreter writes it."""
    about, ram = settings(name)
    image = assembled(name)
    words, tables = parts(image)
    texts = listed(image[:4 * len(words)])
    lines = Machine(image, ram).run()
    uses = ["bytes_of_code", "expect_image", "push_pairs"] if tables else ["expect_code"]
    made = "Made by `tests/make` from its assembly; the trace is that of `tests/interpreter.py`."
    out = comment("//!", about + made) + [""]
    out += [f"use super::{{{', '.join(uses)}}};" if len(uses) > 1 else f"use super::{uses[0]};"]
    out += ["", f"const CODE: [u32; {len(words)}] = ["]
    out += [f"    0x{word:08x}, // {text}" for word, text in zip(words, texts)] + ["];", ""]
    if tables:
        out += ["/// Its tables: byte offsets, and the numbers there.", f"const TABLES: [(usize, u64); {len(tables)}] = ["]
        out += [f"    ({at}, 0x{number:x})," for at, number in tables] + ["];", ""]
    out += [f"const LINES: [&str; {len(lines)}] = ["] + [f'    "{line}\\n",' for line in lines] + ["];", ""]
    out += ["#[test]", f"fn {test_name(name)}(rt: HostRuntime) {{"]
    if tables:
        out += ['    let mut image = bytes_of_code(rt.alloc(), &CODE).expect(&rt, "memory");',
                '    push_pairs(&mut image, &TABLES).expect(&rt, "memory");',
                f"    expect_image(&rt, rt.alloc(), {ram}, &image, &LINES);"]
    else:
        out += [f"    expect_code(&rt, rt.alloc(), {ram}, &CODE, &LINES);"]
    return "\n".join(out + ["}", ""])


def comment(mark, text):
    """A comment of the text, in its lines where they fit and else in lines of a whole."""
    lines = text.strip().split("\n")
    if any(len(line) > 100 - len(mark) - 1 for line in lines):
        lines = textwrap.wrap(" ".join(lines), 100 - len(mark) - 1)
    return [f"{mark} {line}" for line in lines]


def test_name(name):
    return {
        "registers": "registers_read_back_what_was_written",
        "interrupts": "a_software_interrupt_is_taken",
        "counters": "counters_count",
        "trap_values": "stval_by_cause",
        "calls": "what_calls_leave",
        "upper_half": "the_upper_half_of_addresses",
        "secure_words": "what_a_mode_may_not_execute",
    }[name]


def spelled(word, text):
    """The text of a word, or the name of a secure instruction that GNU as doesn't know."""
    names = "launch call ret evict ident caller offerer sget sset".split()
    index = word >> 12 & 7 | (word >> 25) << 3
    if word & 127 != 0x0B or index >= len(names):
        return text
    registers = [f"x{word >> at & 31}" for at in (7, 15, 20)]
    count = {"call": 3, "ident": 3, "sset": 3, "ret": 0, "caller": 1}.get(names[index], 2)
    return f"b.{names[index]} {','.join(registers[:count])}".strip()


def listing(name):
    """The arrays of a guest of a folder, and its place in the table of guests."""
    about, _ = settings(name)
    folder, stem = name.split("/")
    image, prefix = assembled(name), stem.upper()
    words, tables = parts(image)
    texts = listed(image[:4 * len(words)])
    lines = trace(name, image)
    out = comment("//", about)
    out += [f"const {prefix}_CODE: [u32; {len(words)}] = ["]
    out += [f"    0x{word:08x}, // {spelled(word, text)}" for word, text in zip(words, texts)]
    out += ["];", ""]
    out += [f"const {prefix}_TABLES: [(usize, u64); {len(tables)}] = ["]
    out += [f"    ({at}, 0x{number:x})," for at, number in tables] + ["];", ""]
    if len(lines) > LONG:
        return out + digest_listing(prefix, lines), None
    out += [f"const {prefix}_LINES: [&str; {len(lines)}] = ["]
    out += [f'    "{line}\\n",' for line in lines] + ["];", ""]
    entry = ["    Guest {", f"        code: &{prefix}_CODE,", f"        tables: &{prefix}_TABLES,",
             f"        steps: {steps(name):_},", f"        lines: &{prefix}_LINES,", "    },"]
    runs, commands = zeroings(name), script(name)
    if runs:
        out += zeroed_listing(name, image, lines, runs)
    if commands:
        out += [f"const {prefix}_SCRIPT: [&str; {len(commands)}] = ["]
        out += [f'    "{line}\\n",' for line in commands] + ["];", ""]
        entry = wrapped("ScriptedGuest", prefix, entry, [
            f'    harts: "{harts(name)}",', f"    script: &{prefix}_SCRIPT,",
            f"    runs: &{prefix}_RUNS," if runs else "    runs: &NO_RUNS,"])
    elif runs:
        entry = wrapped("ZeroedGuest", prefix, entry, [f"    runs: &{prefix}_RUNS,"])
    return out, entry


def digest_of(lines):
    """The SHA-256 digest of a trace."""
    return hashlib.sha256("".join(line + "\n" for line in lines).encode()).digest()


def digest_listing(prefix, lines):
    """The digest of a trace that is long."""
    digest = digest_of(lines)
    out = [f"/// The digest of its trace, of {len(lines)} lines.", f"const {prefix}_DIGEST: [u8; 32] = ["]
    return out + ["    " + ", ".join(f"0x{byte:02x}" for byte in digest[at:at + 16]) + "," for at in (0, 16)] + ["];", ""]


def wrapped(kind, prefix, entry, fields):
    """A guest of a table as the first field of a larger one."""
    return [f"const {prefix}: {kind}<'static> = {kind} {{", "    guest: Guest {", *entry[1:],
            *fields, "};", ""]


def zeroed_listing(name, image, lines, runs):
    """The runs of a guest in which a module is zeroed, and the lines that they don't keep."""
    prefix, arrays, entries = name.split("/")[1].upper(), [], []
    for run in runs:
        kept, rest = len(lines) if run.kept is None else run.kept, "NO_LINES"
        if run.kept is not None:
            behind, rest = trace(name, image, run)[kept:], f"{prefix}_{run.module}_{run.event}"
            arrays += [f"const {rest}: [&str; {len(behind)}] = ["]
            arrays += [f'    "{line}\\n",' for line in behind] + ["];", ""]
        entries += ["    Zeroed {", f'        place: "{run.module}@{run.event}",',
                    f"        kept: {kept},", f"        rest: &{rest},", "    },"]
    return arrays + [f"const {prefix}_RUNS: [Zeroed<'static>; {len(runs)}] = [", *entries, "];", ""]


def trace(name, image, zeroed=None):
    blind = zeroed and (zeroed.module, zeroed.event)
    machine = Machine(image, settings(name)[1], harts(name))
    return machine.run(steps(name), blind, "\n".join(script(name)))


def folder_module(folder):
    """The test module of a folder of guests."""
    found = [listing(name) for name in names(folder)]
    about, test = FOLDERS[folder]
    out = [f"//! {about}",
           "//! Made by `tests/make` from their assembly; the traces are those of `tests/interpreter.py`.",
           ""]
    if isinstance(test, dict):
        return "\n".join(out + tests_of_their_own(folder, found, test))
    out += ["use super::guest::{Guest, expect_guests};", ""]
    for arrays, _ in found:
        out += arrays
    out += [f"const GUESTS: [Guest<'static>; {len(found)}] = ["]
    out += [line for _, entry in found for line in entry] + ["];", ""]
    out += ["#[test]", f"fn {test}(rt: HostRuntime) {{",
            "    expect_guests(&rt, rt.alloc(), &GUESTS);", "}", ""]
    return "\n".join(out)


def tests_of_their_own(folder, found, tests):
    """The guests of a folder, and a test for each."""
    first = names(folder)[0]
    if script(first):
        uses = ["guest::Guest", "scripted_guest::{NO_RUNS, ScriptedGuest, expect_scripted_guest}",
                "zeroed_guest::{NO_LINES, Zeroed}"]
        expect = "expect_scripted_guest"
    elif zeroings(first):
        uses = ["guest::Guest",
                "zeroed_guest::{NO_LINES, Zeroed, ZeroedGuest, expect_zeroed_guest}"]
        expect = "expect_zeroed_guest"
    else:
        uses, expect = ["guest::{Guest, expect_digest, expect_guest}"], "expect_guest"
    out = [f"use super::{use};" for use in uses] + [""]
    for name, (arrays, entry) in zip(names(folder), found):
        stem = name.split("/")[1]
        if entry and entry[0].startswith(" "):
            # it stands in no larger one, and in no table
            entry = [f"const {stem.upper()}: Guest<'static> = Guest {{", *entry[1:-1], "};", ""]
        if entry is None:
            prefix = stem.upper()
            out += arrays + ["#[test]", f"fn {tests[stem]}(rt: HostRuntime) {{",
                             f"    let (code, tables) = (&{prefix}_CODE, &{prefix}_TABLES);",
                             f"    expect_digest(&rt, rt.alloc(), code, tables, &{prefix}_DIGEST);", "}", ""]
            continue
        out += arrays + entry
        out += ["#[test]", f"fn {tests[stem]}(rt: HostRuntime) {{",
                f"    {expect}(&rt, rt.alloc(), &{stem.upper()});", "}", ""]
    return out


def names(folder=None):
    """The guests with a module of their own, or those of a folder."""
    place = HERE / "guests" / folder if folder else HERE / "guests"
    return sorted(f"{folder}/{path.stem}" if folder else path.stem for path in place.glob("*.S"))
