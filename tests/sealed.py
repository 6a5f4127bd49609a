"""The sealed counter of examples/: its runs with a store, and the test module made of them."""
import hashlib
import pathlib
import re
import shutil
import tempfile

from machine import outside, records

HERE = pathlib.Path(__file__).resolve().parent
EXAMPLES = HERE.parent / "examples"
MODULE = HERE.parent / "crates" / "bn_front" / "src" / "tests" / "sealed.rt"
FILES = "sealed.img", "sealed.script"
WITHOUT_STORE = "run sealed.img --ram 256 --steps 200000 --script sealed.script"
WITH_STORE = f"{WITHOUT_STORE} --store"
AREAS = "bastion.a", "bastion.b"

HEAD = '''\
//! The sealed counter of `examples/`, run again and again with its store.
//! Made by `tests/make` from its image and its script; the traces, the areas and the registers are
//! those of `tests/machine`.

ghost use Rattle.std.specs.Prelude.{◌≤◌, length};

use super::words::words_in;
use super::{desk_of, push_pairs, text};
use crate::bastion;
use bn_edge::{Area, Chip, MemChip, MemSink, MemVault, Vault};
use bn_types::Status;
use std::alloc::Global;
use std::process::Abort;
'''

TESTS = '''\
/// The status of a run with this trace.
fn run(
    rt: &impl Abort,
    alloc: Global,
    words: &str,
    vault: &mut MemVault,
    chip: &mut MemChip,
    lines: &[&str],
) -> Status {
    let mut image = Vec::new(alloc);
    push_pairs(&mut image, &IMAGE).expect(rt, "memory");
    let script = text(alloc, &SCRIPT).expect(rt, "memory");
    let files: [(&str, &[u8]); 2] = [("sealed.img", &image), ("sealed.script", script.as_bytes())];
    let list = words_in(alloc, words).expect(rt, "memory");
    let mut desk = desk_of(alloc, &files, &[]).expect(rt, "memory");
    let mut out = MemSink::of(alloc, 16_384, Vec::new(alloc)).expect(rt, "memory");
    let status = bastion(alloc, &list, &mut desk, vault, chip, &mut out);
    let expected = text(alloc, lines).expect(rt, "memory");
    assert_eq!(rt; out.bytes(), expected.as_bytes());
    status
}

/// A vault whose first area is this, and the second empty.
fn vault_of(rt: &impl Abort, alloc: Global, first: &[u8]) -> MemVault
    requires { length first.now ≤ 65536 }
{
    MemVault::of(alloc, first, b"", Vec::new(alloc)).expect(rt, "memory")
}

/// A read of an area gives these bytes.
fn holds(vault: &mut MemVault, alloc: Global, area: Area, want: &[u8]) -> bool {
    match vault.read_area(alloc, area) {
        Ok(bytes) => bytes.as_slice() == want,
        Err(_) => false,
    }
}

#[test]
fn a_count_outlives_its_run(rt: HostRuntime) {
    let mut vault = vault_of(&rt, rt.alloc(), b"");
    let mut chip = MemChip::of([0; 32], Vec::new(rt.alloc()));
    let status = run(&rt, rt.alloc(), WITH_STORE, &mut vault, &mut chip, &FIRST);
    assert_eq!(rt; status, Status::Ended);
    assert!(rt; holds(&mut vault, rt.alloc(), Area::First, &OLD));
    assert!(rt; holds(&mut vault, rt.alloc(), Area::Second, b""));
    assert!(rt; chip.register() == Ok(AFTER_FIRST));
    let status = run(&rt, rt.alloc(), WITH_STORE, &mut vault, &mut chip, &SECOND);
    assert_eq!(rt; status, Status::Ended);
    assert!(rt; holds(&mut vault, rt.alloc(), Area::First, &OLD));
    assert!(rt; holds(&mut vault, rt.alloc(), Area::Second, &NEW));
    assert!(rt; chip.register() == Ok(AFTER_SECOND));
}

#[test]
fn areas_of_an_earlier_run_are_refused(rt: HostRuntime) {
    let mut vault = vault_of(&rt, rt.alloc(), &OLD);
    let mut chip = MemChip::of(AFTER_SECOND, Vec::new(rt.alloc()));
    let status = run(&rt, rt.alloc(), WITH_STORE, &mut vault, &mut chip, &MISMATCH);
    assert_eq!(rt; status, Status::Store);
    assert!(rt; holds(&mut vault, rt.alloc(), Area::First, &OLD));
    assert!(rt; holds(&mut vault, rt.alloc(), Area::Second, b""));
    assert!(rt; chip.register() == Ok(AFTER_SECOND));
}

#[test]
fn a_count_without_a_store_begins_anew(rt: HostRuntime) {
    let mut vault = vault_of(&rt, rt.alloc(), &OLD);
    let mut chip = MemChip::of(AFTER_FIRST, Vec::new(rt.alloc()));
    let status = run(&rt, rt.alloc(), WITHOUT_STORE, &mut vault, &mut chip, &FIRST);
    assert_eq!(rt; status, Status::Ended);
    assert!(rt; holds(&mut vault, rt.alloc(), Area::First, &OLD));
    assert!(rt; holds(&mut vault, rt.alloc(), Area::Second, b""));
    assert!(rt; chip.register() == Ok(AFTER_FIRST));
}
'''


def area(folder, name):
    path = folder / name
    return path.read_bytes() if path.exists() else b""


def runs():
    """The texts of two runs, then of one whose areas are as before the second, and of one without a
    store; and the area and the register after each of the first two."""
    with tempfile.TemporaryDirectory() as name:
        folder = pathlib.Path(name)
        for file in FILES:
            shutil.copy(EXAMPLES / file, folder)

        def text(words, wanted):
            status, made = outside.call(words.split(" "), folder)
            assert status == wanted, status
            return made

        def register():
            return (folder / "bastion.reg").read_bytes()

        first = text(WITH_STORE, outside.ENDED)
        kept = [(area(folder, "bastion.a"), register())]
        before = [area(folder, name) for name in AREAS]
        second = text(WITH_STORE, outside.ENDED)
        kept.append((area(folder, "bastion.b"), register()))
        for file, content in zip(AREAS, before):
            (folder / file).write_bytes(content)
        refused, alone = text(WITH_STORE, outside.STORE), text(WITHOUT_STORE, outside.ENDED)
    return (first, second, refused, alone), kept


def faults(texts, kept):
    """What isn't as the example says, in words."""
    first, second, refused, alone = texts
    for count, ((area_text, register), text) in enumerate(zip(kept, texts)):
        (identity, words), = records.from_image(area_text).items()
        lines = [line.split(" ") for line in text.split("\n")]
        counts = [int(line[3], 16) for line in lines if line[0] == "out"]
        if counts != [3 * count + 1, 3 * count + 2, 3 * count + 3]:
            yield f"run {count + 1} writes {counts}"
        if words != [3 * count + 3] + [0] * 31 or f" {identity.hex()}\n" not in text:
            yield f"run {count + 1} keeps other words"
        if register != hashlib.sha256(area_text).digest():
            yield f"run {count + 1} leaves another register"
    digests = kept[1][1], kept[0][1], hashlib.sha256(b"").digest()
    if refused != "store mismatch " + " ".join(digest.hex() for digest in digests) + "\n":
        yield "areas of an earlier run aren't refused"
    if alone != first:
        yield "a run without a store differs from the first"


def numbers(content):
    """The numbers of 8 bytes that aren't zero, with their offsets."""
    found = ((at, int.from_bytes(content[at:at + 8], "little")) for at in range(0, len(content), 8))
    return [(at, number) for at, number in found if number]


def array(name, kind, items):
    lines = [f"    {item}," for item in items]
    return [f"const {name}: [{kind}; {len(items)}] = [", *lines, "];", ""]


def pairs(name, content):
    return array(name, "(usize, u64)", [f"({at}, 0x{number:x})" for at, number in numbers(content)])


def octets(name, content):
    return array(name, "u8", [f"0x{octet:02x}" for octet in content])


def texts_of(name, text):
    return array(name, "&str", [f'"{line}\\n"' for line in text.split("\n")[:-1]])


def module():
    """The test module."""
    (first, second, refused, _), kept = runs()
    out = [HEAD, f'const WITHOUT_STORE: &str = "{WITHOUT_STORE}";', "",
           f'const WITH_STORE: &str =\n    "{WITH_STORE}";', ""]
    out += ["/// Its image: byte offsets, and the numbers there; the rest is zero."]
    out += pairs("IMAGE", (EXAMPLES / "sealed.img").read_bytes())
    out += texts_of("SCRIPT", (EXAMPLES / "sealed.script").read_text())
    for area_name, register_name, (content, register) in zip(
            ("OLD", "NEW"), ("AFTER_FIRST", "AFTER_SECOND"), kept):
        out += octets(area_name, content) + octets(register_name, register)
    out += texts_of("FIRST", first) + texts_of("SECOND", second)
    pieces = re.findall(r"store mismatch |\w{64}\s", refused)
    out += ["/// Its register, and its areas' digests."]
    out += array("MISMATCH", "&str", [f'"{piece}"'.replace("\n", "\\n") for piece in pieces])
    out += [TESTS]
    return "\n".join(out)
