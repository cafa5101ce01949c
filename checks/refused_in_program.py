"""Refuses each growth of memory of the program in turn.

    python3 checks/refused_in_program.py

The program is that of the repository, or the one that the variable DVBSUB names. A small library, which `cc` makes here, stands before
the program's calls for memory: it counts those that the program's own code makes, and refuses the one with the number that is asked for.
Each command is run once with nothing refused, and then once for each of its calls for memory. With nothing refused it has to be done,
and to have such calls. With a refusal it has to end as without one, or with `memory` and status 7, or, where the name of a file found no
memory, as over a file that cannot be opened. OUT is then as it was, not made. Any other end is printed: there must be none. The commands
make 33 to 884 calls each, 2,953 in all, which takes ten seconds.
"""

import os
import subprocess
import sys
import tempfile
from collections import Counter
from concurrent.futures import ThreadPoolExecutor

import valgrind

LIBRARY = r"""
#define _GNU_SOURCE
#include <errno.h>
#include <link.h>
#include <stdio.h>
#include <stdlib.h>
#include <sys/syscall.h>
#include <unistd.h>

extern void *__libc_malloc(size_t), *__libc_calloc(size_t, size_t), *__libc_realloc(void *, size_t), *__libc_memalign(size_t, size_t);

static char *begin, *end;
static long refused = -1, count;

static int of_program(struct dl_phdr_info *info, size_t size, void *data) {
    for (int k = 0; k < info->dlpi_phnum; k++)
        if (info->dlpi_phdr[k].p_type == PT_LOAD) {
            char *place = (char *) info->dlpi_addr + info->dlpi_phdr[k].p_vaddr;
            if (!begin || place < begin) begin = place;
            if (place + info->dlpi_phdr[k].p_memsz > end) end = place + info->dlpi_phdr[k].p_memsz;
        }
    return 1;
}

static int is_refused(void *caller) {
    if (refused < 0) {
        char *number = getenv("REFUSED");
        refused = number ? atol(number) : 0;
        dl_iterate_phdr(of_program, 0);
    }
    if ((char *) caller < begin || (char *) caller >= end) return 0;
    return __atomic_add_fetch(&count, 1, __ATOMIC_SEQ_CST) == refused;
}

#define REFUSE if (is_refused(__builtin_return_address(0))) { errno = ENOMEM; return 0; }

void *malloc(size_t size) { REFUSE return __libc_malloc(size); }
void *calloc(size_t number, size_t size) { REFUSE return __libc_calloc(number, size); }
void *realloc(void *old, size_t size) { REFUSE return __libc_realloc(old, size); }
void *memalign(size_t align, size_t size) { REFUSE return __libc_memalign(align, size); }
void *aligned_alloc(size_t align, size_t size) { REFUSE return __libc_memalign(align, size); }
int posix_memalign(void **place, size_t align, size_t size) {
    if (is_refused(__builtin_return_address(0))) return ENOMEM;
    *place = __libc_memalign(align, size);
    return *place ? 0 : ENOMEM;
}

// The program ends here, and runs no destructors.
void _exit(int code) {
    char *name = getenv("COUNTED");
    FILE *file = name ? fopen(name, "w") : 0;
    if (file) { fprintf(file, "%ld", count); fclose(file); }
    syscall(SYS_exit_group, code);
    __builtin_unreachable();
}
"""

# What a command may tell where memory was refused.
TOLD = {"memory": 7, "read first": 5, "read second": 5, "write out": 6}


def commands(folder):
    """The commands with the inputs of each, in files of the folder."""
    stream = valgrind.packets([valgrind.unit(90000, valgrind.FIRST), valgrind.unit(180000, valgrind.SECOND)])
    names = {}
    examples = os.path.join(valgrind.HERE, "examples")
    names["script"], names["font"] = os.path.join(examples, "subtitle.csv"), os.path.join(examples, "television.bdf")
    names["stream"] = os.path.join(folder, "stream")
    with open(names["stream"], "wb") as file:
        file.write(stream)
    yield ["compile", "sd", "256", "1", names["script"], names["font"]], []
    yield ["compile", "hd", "256", "1", names["script"], names["font"]], []
    yield ["expect", names["script"], names["font"]], ["90000", "300000"]
    yield ["list", "256", names["stream"]], []
    yield ["dump", "sd", "256", "1", "3", names["stream"]], ["90000", "180000"]
    yield ["check", "sd", "0", "256", "1", names["stream"]], []
    yield ["gen", "17", "sd"], []


def run(preloaded, folder, number, words, ticks):
    """The code and the line of a command whose call for memory of that number is refused, what is in OUT, and how many calls there were."""
    program, library = preloaded
    out, counted = os.path.join(folder, f"out{number}"), os.path.join(folder, f"count{number}")
    variables = dict(os.environ, LD_PRELOAD=library, REFUSED=str(number), COUNTED=counted)
    done = subprocess.run(
        [program, *words, out, *ticks], env=variables, stdout=subprocess.PIPE, stderr=subprocess.DEVNULL, timeout=600, check=False
    )
    written = None
    if os.path.exists(out):
        with open(out, "rb") as file:
            written = file.read()
        os.remove(out)
    calls = 0
    if os.path.exists(counted):
        with open(counted, encoding="utf-8") as file:
            calls = int(file.read())
        os.remove(counted)
    return (done.returncode, done.stdout.decode().strip(), written), calls


def check(preloaded, words, ticks, workers):
    """Prints how the runs of a command end, and answers how many end otherwise than they may."""
    with tempfile.TemporaryDirectory() as folder:
        whole, calls = run(preloaded, folder, 0, words, ticks)
        if whole[:2] != (0, "done") or whole[2] is None or not calls:
            print(f"{words[0]} {words[1]}: WRONG with nothing refused: {whole[0]} {whole[1]}, {calls} calls for memory", flush=True)
            return 1
        numbers = range(1, calls + 1)
        ends = list(workers.map(lambda number: run(preloaded, folder, number, words, ticks)[0], numbers))
    bad = [
        f"{' '.join(words)}: call {number}: {end[0]} {end[1]}, OUT {'not made' if end[2] is None else f'of {len(end[2])} bytes'}"
        for number, end in zip(numbers, ends)
        if end != whole and (TOLD.get(end[1]) != end[0] or end[2] is not None)
    ]
    told = Counter(f"{end[0]} {end[1]}" for end in ends)
    print(f"{words[0]} {words[1]}: {whole[0]} {whole[1]}, {calls} calls for memory, {len(bad)} wrong: {dict(told)}", flush=True)
    print("".join(f"    {line}\n" for line in bad), end="", flush=True)
    return len(bad)


def main():
    program = valgrind.program_itself()
    total = 0
    with tempfile.TemporaryDirectory() as folder, ThreadPoolExecutor(max_workers=4) as workers:
        source, library = os.path.join(folder, "refuse.c"), os.path.join(folder, "refuse.so")
        with open(source, "w", encoding="utf-8") as file:
            file.write(LIBRARY)
        subprocess.run(["cc", "-O2", "-w", "-shared", "-fPIC", "-o", library, source], check=True)
        for words, ticks in commands(folder):
            total += check((program, library), words, ticks, workers)
    return 1 if total else 0


if __name__ == "__main__":
    sys.exit(main())
