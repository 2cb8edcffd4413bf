"""A library that stands between the program and the system: it refuses allocations, interrupts reads and cuts what they
and writes take; and it counts the bytes of the allocations.

What it does it takes from its environment. `FIRST` is the number of the first allocation that is refused, from 1, and
`LAST` that of the last one. `INTERRUPTS` is how often each read ends with EINTR before it reads. `MOST` is how many
bytes one read gives and one write takes at most. For each refusal and each interruption a byte goes to the file `TOLD`.
The file `COUNTED`, where there is one, holds how many bytes were asked for so far, as a number of eight bytes. Linux alone; it is built by `cc`.
"""

import os
import pathlib
import shutil
import subprocess
import sys
import tempfile

from support import load, tell

hostile = load(pathlib.Path(__file__).with_name("hostile"))

SOURCE = r"""
#include <errno.h>
#include <stdatomic.h>
#include <stdlib.h>
#include <sys/syscall.h>
#include <unistd.h>

void *__libc_malloc(size_t);
void *__libc_calloc(size_t, size_t);
void *__libc_realloc(void *, size_t);
void *__libc_memalign(size_t, size_t);

static atomic_ulong count, interrupted, bytes_asked;
static unsigned long first, last, interrupts, most;
static int told, counted;

static unsigned long number_in(const char *name) {
    const char *text = getenv(name);
    return text ? strtoul(text, 0, 10) : 0;
}

__attribute__((constructor)) static void begin(void) {
    first = number_in("FIRST");
    last = number_in("LAST");
    interrupts = number_in("INTERRUPTS");
    most = number_in("MOST");
    told = number_in("TOLD");
    counted = number_in("COUNTED");
    atomic_store(&count, 0);
}

static void tell(void) {
    if (syscall(SYS_write, told, "x", 1) != 1) abort();
}

static int is_refused(size_t size) {
    unsigned long asked = size + atomic_fetch_add(&bytes_asked, size);
    if (counted) syscall(SYS_pwrite64, counted, &asked, sizeof asked, 0L);
    unsigned long number = 1 + atomic_fetch_add(&count, 1);
    if (!first || number < first || number > last) return 0;
    tell();
    errno = ENOMEM;
    return 1;
}

void *malloc(size_t size) { return is_refused(size) ? 0 : __libc_malloc(size); }
void *calloc(size_t number, size_t size) { return is_refused(number * size) ? 0 : __libc_calloc(number, size); }
void *realloc(void *old, size_t size) { return is_refused(size) ? 0 : __libc_realloc(old, size); }
void *aligned_alloc(size_t to, size_t size) { return is_refused(size) ? 0 : __libc_memalign(to, size); }
int posix_memalign(void **at, size_t to, size_t size) {
    return is_refused(size) || !(*at = __libc_memalign(to, size)) ? ENOMEM : 0;
}

static size_t cut(size_t size) { return most && size > most ? most : size; }

ssize_t read(int file, void *bytes, size_t size) {
    if (interrupts && atomic_fetch_add(&interrupted, 1) % (interrupts + 1) < interrupts) {
        tell();
        errno = EINTR;
        return -1;
    }
    return syscall(SYS_read, file, bytes, cut(size));
}

ssize_t write(int file, const void *bytes, size_t size) { return syscall(SYS_write, file, bytes, cut(size)); }
"""


def run(library, words, text, **settings):
    """One run over a text, from a file to a file, with these settings of the library, and how often it told that it did
    something."""
    source, sink, told = hostile.holding(text), os.memfd_create("answer"), os.memfd_create("told")
    environment = {name: str(value) for name, value in settings.items()} | {"LD_PRELOAD": str(library), "TOLD": str(told)}
    try:
        process = subprocess.Popen(
            [hostile.PROGRAM, *words], stdin=source, stdout=sink, stderr=subprocess.DEVNULL, env=os.environ | environment, pass_fds=[told]
        )
        done = hostile.Run(hostile.ended(process), hostile.contents(sink))
        return done, len(hostile.contents(told))
    finally:
        for fd in (source, sink, told):
            os.close(fd)


def bytes_asked(library, words, text):
    """How many bytes a run asks for, in all of its allocations."""
    counted = os.memfd_create("counted")
    try:
        environment = os.environ | {"LD_PRELOAD": str(library), "COUNTED": str(counted), "TOLD": "2"}
        subprocess.run(
            [hostile.PROGRAM, *words], input=text, stdout=subprocess.DEVNULL, stderr=subprocess.DEVNULL, env=environment, pass_fds=[counted]
        )
        return int.from_bytes(hostile.contents(counted), sys.byteorder)
    finally:
        os.close(counted)


def library_in(folder):
    """The library, built in that folder."""
    source, library = pathlib.Path(folder, "interposed.c"), pathlib.Path(folder, "interposed.so")
    source.write_text(SOURCE)
    subprocess.run(["cc", "-O2", "-shared", "-fPIC", "-o", library, source], check=True)
    return library


def part(table, fill):
    """The whole of a part that needs the library: fills a table of what came out, and shows it. Where no compiler is there
    it makes no check, and says so."""
    if shutil.which("cc") is None:
        print("no check is made: the compiler 'cc' is not on the PATH", file=sys.stderr)
        sys.exit(tell(0, 0))
    with tempfile.TemporaryDirectory() as folder:
        fill(table, library_in(folder))
    sys.exit(table.show())
