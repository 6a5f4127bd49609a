"""What the compiler and the assembler make of examples/secure.h: the words of its instructions, and
the bytes of a segment's text."""
import os
import struct
import subprocess
import tempfile

from assembler import CROSS, SECURE, words_of
from tables import values

EXAMPLES = os.path.join(os.path.dirname(os.path.dirname(os.path.realpath(__file__))), 'examples')
FLAGS = ['-march=rv64i_zicsr', '-mabi=lp64', '-mcmodel=medany', '-ffreestanding', '-fno-pic', '-Os',
         '-Wall', '-Werror', '-I', EXAMPLES]
OPCODE, CUSTOM_0 = 0x7f, 0x0b
FUNCTIONS = 0xfe00707f  # funct7, funct3 and the opcode
FIELDS = (0x1f << 7, 0x1f << 15, 0x1f << 20)  # rd, rs1 and rs2

# A function a call of the header, with its instruction.
CALLS = {
    'Launch': 'long f(const struct segment *text) { return launch_module(text); }',
    'Call': 'long f(unsigned long id, unsigned long *a0, unsigned long *a1) '
            '{ return call_module(id, 4096, a0, a1); }',
    'Ret': 'void f(void) { return_to_caller(1, 2); }',
    'Evict': 'long f(unsigned long id) { return evict_module(id); }',
    'Ident': 'unsigned long f(unsigned long id) { return identity_word(id, 3); }',
    'Caller': 'unsigned long f(void) { return caller_id(); }',
    'Offerer': 'unsigned long f(const void *address) { return offerer_id(address); }',
    'Sget': 'unsigned long f(unsigned long index) { return stored_word(index); }',
    'Sset': 'long f(unsigned long index, unsigned long value) { return store_word(index, value); }',
}

TEXT = '''
const SEGMENT_TEXT text = {
    .magic = SEGMENT_MAGIC, .version = SEGMENT_VERSION, .mode = SEGMENT_MODE_S,
    .entry_count = 2, .page_count = 3, .partner_count = 1,
    .entries = { 0x80010000, 0x80010ffc },
    .pages = {
        { .virtual_page = 0x80010, .sort = SEGMENT_PRIVATE,
          .rights = SEGMENT_LOAD | SEGMENT_FETCH },
        { .virtual_page = 0x80011, .sort = SEGMENT_OFFER, .rights = SEGMENT_LOAD | SEGMENT_STORE,
          .mask = 1 },
        { .virtual_page = 0xfffffffffffff, .sort = SEGMENT_ACCEPT, .rights = SEGMENT_LOAD },
    },
    .partners = { { 1, [31] = 32 } },
};
'''


def compiled(name, source, section):
    """The bytes of a section that the compiler makes of a source."""
    with tempfile.TemporaryDirectory() as folder:
        def run(tool, *words):
            subprocess.run([CROSS + tool] + list(words), cwd=folder, check=True)
        with open(os.path.join(folder, name), 'w', encoding='utf-8') as file:
            file.write('#include "secure.h"\n%s\n' % source)
        run('gcc', *FLAGS, '-c', '-o', 'a.o', name)
        run('objcopy', '-O', 'binary', '-j', section, 'a.o', 'a.bin')
        with open(os.path.join(folder, 'a.bin'), 'rb') as file:
            return file.read()


def macro_row(insn):
    """An instruction as the header's macro has it."""
    name, fields = (insn, {}) if isinstance(insn, str) else insn
    operands = ['x%d' % fields[place] for place in SECURE[name][2:] if place]
    return ('b.%s %s' % (name.lower(), ', '.join(operands))).strip()


def text_bytes():
    """The same text as TEXT, put together by the table of its places."""
    head = b'BNSG' + bytes([1, 1, 2, 3, 1]) + bytes(7)
    entries = struct.pack('<2Q', 0x80010000, 0x80010ffc).ljust(64, b'\0')
    pages = ((0x80010, 1, 5, 0), (0x80011, 2, 3, 1), (0xfffffffffffff, 3, 1, 0))
    declared = b''.join(struct.pack('<QBBB5x', *page) for page in pages).ljust(1024, b'\0')
    return head + entries + declared + (b'\1' + bytes(30) + b'\x20').ljust(128, b'\0')


def check_header(path, report):
    """Assembles the macros by the rows of rv_insn's table, and compiles each call and a text."""
    for wanted, insn in values(path)['SECURE']:
        source = macro_row(insn)
        word, = words_of(compiled('a.S', source, '.text'))
        report('secure.h: %s' % source, '%#010x' % wanted, '%#010x' % word)
    for name, source in CALLS.items():
        funct7, funct3, *places = SECURE[name]
        words = [word for word in words_of(compiled('a.c', source, '.text'))
                 if word & OPCODE == CUSTOM_0]
        unused = sum(mask for mask, place in zip(FIELDS, places) if place is None)
        wanted = ['%#x' % (funct7 << 25 | funct3 << 12 | CUSTOM_0)]
        made = ['%#x' % (word & (FUNCTIONS | unused)) for word in words]
        report('secure.h: %s' % source, ', '.join(wanted), ', '.join(made))
    report('secure.h: a text', text_bytes().hex(), compiled('a.c', TEXT, '.rodata').hex())
