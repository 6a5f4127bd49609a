"""The trace of a guest on QEMU's machine `virt`, over firmware.S, from its log of single steps:
each instruction and each interrupt of modes S and U is an event. Accesses that aren't aligned are
carried out there, and the clock is another, so a guest that is compared has neither."""
import hashlib
import os
import re
import struct
import subprocess
import tempfile

from assembler import CROSS
from tables import values

HERE = os.path.dirname(os.path.realpath(__file__))
QEMU = 'qemu-system-riscv64'
RAM, FIRMWARE = 0x80000000, 0x88000000
ECALL_FROM_S = 9
FETCH_CAUSES = (1, 12)
SECONDS = 120

EXECUTED = re.compile(r'^Trace \d+: \S+ \[\w+/(\w+)/')
STOPPED = re.compile(r'^Stopped execution of TB chain before ')
TRAPPED = re.compile(r'^riscv_cpu_do_interrupt: hart:0, async:(\d), cause:(\w+), epc:0x(\w+),')


def output(words, folder=None):
    """What a command writes to standard output."""
    return subprocess.run(words, cwd=folder, check=True, stdout=subprocess.PIPE,
                          universal_newlines=True).stdout


def build_firmware(folder):
    """The firmware as bytes in a file, and the addresses of its labels."""
    def tool(name, *words):
        return output([CROSS + name] + list(words), folder)
    tool('as', '-march=rv64i_zicsr', '-o', 'firmware.o', os.path.join(HERE, 'firmware.S'))
    address = '%#x' % FIRMWARE
    tool('ld', '-Ttext=' + address, '-e', address, '-o', 'firmware.elf', 'firmware.o')
    tool('objcopy', '-O', 'binary', 'firmware.elf', 'firmware.bin')
    labels = (line.split() for line in tool('nm', '--defined-only', 'firmware.elf').splitlines())
    return 'firmware.bin', {name: int(address, 16) for address, _, name in labels}


def single_steps():
    """The option that has each instruction logged, which QEMU has under another name since 8.1."""
    version = re.search(r'version (\d+)\.(\d+)', output([QEMU, '--version']))
    major, minor = map(int, version.groups())
    return ['-accel', 'tcg,one-insn-per-tb=on'] if (major, minor) >= (8, 1) else ['-singlestep']


def run(folder, image, firmware):
    """Runs the image up to its shutdown; leaves log, console and memory in files."""
    with open(os.path.join(folder, 'image'), 'wb') as file:
        file.write(image)
    words = [QEMU, '-M', 'virt,memory-backend=ram', '-m', '256M', '-cpu', 'rv64,c=false',
             '-object', 'memory-backend-file,id=ram,size=256M,mem-path=ram,share=on',
             '-bios', 'none', '-display', 'none', '-monitor', 'none', '-serial', 'file:console',
             '-d', 'exec,nochain,int', '-D', 'log']
    words += single_steps()
    for name, address in (('image', RAM), (firmware, FIRMWARE)):
        words += ['-device', 'loader,file=%s,addr=%#x,force-raw=on' % (name, address)]
    words += ['-device', 'loader,addr=%#x,cpu-num=0' % FIRMWARE]
    subprocess.run(words, cwd=folder, check=True, stdin=subprocess.DEVNULL, timeout=SECONDS)


def lines_of(log, labels, console):
    """The lines of the trace, and how many events there were."""
    lines, events = [], 0
    for line in log:
        executed, trapped = EXECUTED.match(line), TRAPPED.match(line)
        if executed:
            pc = int(executed.group(1), 16)
            if pc == labels['putchar']:
                lines.append('out %d 0 %02x' % (events - 1, next(console)))
            elif pc < FIRMWARE:
                events += 1
        elif STOPPED.match(line):
            events -= 1
        elif trapped:
            cause = int(trapped.group(2), 16) + (int(trapped.group(1)) << 63)
            if cause in FETCH_CAUSES or cause >> 63:
                events += 1
            if cause != ECALL_FROM_S:
                lines.append('trap %d 0 %016x %s' % (events - 1, cause, trapped.group(3)))
    return lines, events


def trace(image, ram_pages):
    with tempfile.TemporaryDirectory() as folder:
        firmware, labels = build_firmware(folder)
        run(folder, image, firmware)
        with open(os.path.join(folder, 'console'), 'rb') as file:
            console = iter(file.read())
        with open(os.path.join(folder, 'log'), encoding='utf-8') as log:
            lines, events = lines_of(log, labels, console)
        with open(os.path.join(folder, 'ram'), 'rb') as file:
            digest = hashlib.sha256(file.read(4096 * ram_pages)).hexdigest()
    return lines + ['end %d shutdown %s' % (events, digest)]


def check_machine(path, report):
    """Runs the guest that executes every instruction, in a RAM of 1,024 pages, and compares."""
    guest = values(path)
    image = struct.pack('<%dI' % len(guest['CODE']), *guest['CODE'])
    image += struct.pack('<%dQ' % len(guest['OPERANDS']), *guest['OPERANDS'])
    made = ''.join(line + '\n' for line in trace(image, 1024))
    report(os.path.basename(path), ''.join(guest['LINES']), made)
