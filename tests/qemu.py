"""QEMU's machine `virt` as another machine: a guest is entered in mode S at 0x80000000, over a small firmware."""
import pathlib
import shutil
import subprocess
import tempfile

import guests

HERE = pathlib.Path(__file__).resolve().parent
FIRMWARE = 0x80800000


def console_of(image):
    """What a guest writes to its console before it shuts down; None where QEMU isn't installed."""
    if shutil.which("qemu-system-riscv64") is None:
        return None
    with tempfile.TemporaryDirectory() as folder:
        base = pathlib.Path(folder)
        guests.tool("as", "-march=rv64i_zicsr", "-o", str(base / "firmware.o"), str(HERE / "firmware.S"))
        guests.tool("ld", f"-Ttext={FIRMWARE:#x}", "-e", "_start", "-o", str(base / "firmware.elf"),
                    str(base / "firmware.o"))
        guests.tool("objcopy", "-O", "binary", str(base / "firmware.elf"), str(base / "firmware.img"))
        (base / "guest.img").write_bytes(image)
        answer = subprocess.run(
            ["qemu-system-riscv64", "-machine", "virt", "-cpu", "rv64,c=false,f=false,d=false", "-m", "16",
             "-nographic", "-bios", "none", "-serial", f"file:{base / 'console'}", "-monitor", "none",
             "-device", f"loader,file={base / 'guest.img'},addr=0x80000000,force-raw=on",
             "-device", f"loader,file={base / 'firmware.img'},addr={FIRMWARE:#x},force-raw=on",
             "-device", f"loader,addr={FIRMWARE:#x},cpu-num=0"],
            capture_output=True, timeout=60, check=False)
        if answer.returncode:
            raise SystemExit(answer.stderr.decode())
        return (base / "console").read_bytes()
