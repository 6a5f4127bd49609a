"""A plain interpreter of the whole machine, written from the manuals and the rules of modules, and
apart from the emulator. It searches lists at every access, and is slow.

| Module | What it has |
|---|---|
| values | constants, and what an instruction may end in |
| state | harts, rows of live modules, and the machine that has them |
| csrs | the CSRs of a hart, traps and interrupts |
| memory | walks, the rule of admission, loads, stores, devices |
| segments | segment texts and their tests |
| modules | launch, call, return, stop, resumption, eviction, identities |
| records | the words that modules keep, and their stored image |
| hypervisor | calls to the hypervisor |
| instructions | what each instruction does |
| running | turns, events, the trace |
| images, scripts | image files and texts that order events, read or refused |
| generator | the image and script that are made of a number, and their summary |
| outside | the words of a command line, files and areas, the whole report |
"""
