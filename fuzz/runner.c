/* The runner on any bytes at all. Its proved module is compiled with instrumentation; its `main`, `read`, `write`, `open`, `close` and
 * `isatty` have other names there (fuzz/run), so that it runs in this process on a recording that comes in pieces of any size, with interrupted calls
 * and with failures. What it writes is held to the lines that document 01 says, worked out here from the shipped library, and the word
 * on how it ended to what happened. */
#include "../include/caplattice.h"
#include "harness.h"

#include <errno.h>
#include <fcntl.h>

int runner_main(void);

enum { BUFFER = 65536, MOST = 3 * BUFFER, MOST_LINES = MOST };

/* ---- the world that the runner sees */

static struct {
    const uint8_t *recording;
    size_t length, at;
    struct bytes pieces;       /* sizes of what reads and writes take */
    size_t most;               /* no piece is longer */
    size_t read_fails_at;      /* that many bytes are read, then a read fails */
    size_t write_fails_at;
    int interrupts, terminal, failed, error;
    int deaf;                  /* standard error takes nothing */
    char out[MOST_LINES];
    size_t written;
    char said[4096];
    size_t told;
    char word[16];             /* what was written to the file that the argument names */
    size_t spelt;
    int is_open;
} world;

enum { ENDING = 3 };

static size_t piece(size_t wanted)
{
    size_t size = world.most;
    if (world.pieces.left > 0)
        size = 1 + taken(&world.pieces) * world.most / 256;
    return size < wanted ? size : wanted;
}

static int interrupted(void)
{
    if (!world.interrupts || world.pieces.left == 0 || taken(&world.pieces) % 4)
        return 0;
    errno = EINTR;
    return 1;
}

long fuzz_read(int from, void *buffer, size_t wanted)
{
    if (from != 0 || wanted == 0) {
        fprintf(stderr, "the runner reads %zu bytes from descriptor %d\n", wanted, from);
        abort();
    }
    if (world.failed) {
        fprintf(stderr, "the runner reads on after a failure\n");
        abort();
    }
    if (interrupted())
        return -1;
    size_t end = world.read_fails_at < world.length ? world.read_fails_at : world.length;
    if (world.at == end) {
        if (end == world.length && world.read_fails_at > world.length)
            return 0;
        world.failed = 1;
        errno = world.error;
        return -1;
    }
    size_t size = piece(wanted);
    if (size > end - world.at)
        size = end - world.at;
    memcpy(buffer, world.recording + world.at, size);
    world.at += size;
    return (long)size;
}

long fuzz_write(int to, const void *buffer, size_t wanted)
{
    if (to == ENDING && world.is_open) {
        size_t room = sizeof world.word - 1 - world.spelt, size = piece(wanted);
        size = size < room ? size : room;
        memcpy(world.word + world.spelt, buffer, size);
        world.spelt += size;
        return (long)size;
    }
    if (to != 1 && to != 2) {
        fprintf(stderr, "the runner writes to descriptor %d\n", to);
        abort();
    }
    if (to == 2) {
        /* No interrupted calls here: the kit's words on standard error give up after some of them (docs/FUZZING.md). */
        if (world.deaf) {
            errno = EBADF;
            return -1;
        }
        size_t room = sizeof world.said - world.told, size = piece(wanted);
        memcpy(world.said + world.told, buffer, size < room ? size : room);
        world.told += size < room ? size : room;
        return (long)size;
    }
    if (interrupted())
        return -1;
    if (world.written >= world.write_fails_at) {
        world.failed = 1;
        errno = world.error;
        return -1;
    }
    size_t size = piece(wanted);
    if (size > world.write_fails_at - world.written)
        size = world.write_fails_at - world.written;
    if (size > sizeof world.out - world.written) {
        fprintf(stderr, "the runner writes more than the recording can owe\n");
        abort();
    }
    memcpy(world.out + world.written, buffer, size);
    world.written += size;
    return (long)size;
}

int fuzz_isatty(int of)
{
    (void)of;
    return world.terminal;
}

int fuzz_close(int of)
{
    world.is_open = 0;
    return of == ENDING ? 0 : -1;
}

int rattle_errno(void)
{
    return errno;
}

void rattle_set_errno(int error)
{
    errno = error;
}

/* The program's own name, and one argument: its length, or -1 where there is none. */
long rattle_arg(size_t which, char *buffer, size_t room)
{
    static const char name[] = "ending";
    if (which > 1)
        return -1;
    if (which != 1 || room < sizeof name - 1) {
        fprintf(stderr, "the runner asks for argument %zu with room for %zu bytes\n", which, room);
        abort();
    }
    memcpy(buffer, name, sizeof name - 1);
    return sizeof name - 1;
}

int fuzz_open(const char *path, int how, ...)
{
    if (strcmp(path, "ending") != 0 || (how & (O_ACCMODE | O_CREAT | O_TRUNC)) != (O_WRONLY | O_CREAT | O_TRUNC)) {
        fprintf(stderr, "the runner opens another file, or not to write it anew\n");
        abort();
    }
    world.is_open = 1;
    return ENDING;
}

/* ---- the lines that are owed */

extern __typeof__(caplattice_decode_cp) shipped_caplattice_decode_cp;
extern __typeof__(caplattice_decode_tp) shipped_caplattice_decode_tp;
extern __typeof__(caplattice_decode_tp_half) shipped_caplattice_decode_tp_half;
extern __typeof__(caplattice_decode_aach) shipped_caplattice_decode_aach;

static const size_t symbols_of[] = {0, 120, 168, 216, 432, 30, 432, 216};

static uint8_t answered(unsigned kind, const uint8_t *body, caplattice_answer *answer)
{
    static uint8_t target[288];
    static uint16_t trellis[288];
    uint32_t start = (uint32_t)body[0] << 24 | (uint32_t)body[1] << 16 | (uint32_t)body[2] << 8 | body[3];
    const uint8_t *symbols = body + 4;
    switch (kind) {
    case 5: return shipped_caplattice_decode_aach(start, symbols, 30, answer);
    case 6: return shipped_caplattice_decode_tp(start, symbols, 432, target, 288, trellis, 288, answer);
    case 7: return shipped_caplattice_decode_tp_half(start, symbols, 216, target, 288, trellis, 288, answer);
    default: return shipped_caplattice_decode_cp((uint8_t)kind, start, symbols, symbols_of[kind], target, 288, trellis, 288, answer);
    }
}

static size_t a_line(char *out, size_t number, unsigned kind, const uint8_t *body)
{
    static const char *const words[] = {"done", "good", "bad", "clean", "mended", "beyond"};
    caplattice_answer said;
    unsigned refusal = answered(kind, body, &said);
    if (refusal)
        return (size_t)sprintf(out, "%zu %02x refused %u\n", number, kind, refusal);
    if (kind == 5)
        return (size_t)sprintf(out, "%zu %02x %s %u %04x\n", number, kind, words[said.verdict], (unsigned)said.place, (unsigned)said.value);
    return (size_t)sprintf(out, "%zu %02x %s %u\n", number, kind, words[said.verdict], (unsigned)said.disagreements);
}

static const char *ending; /* the word for what `owed` was last asked of */

/* The lines of the first `length` bytes; after a failed read neither a cut record nor an end is told. */
static size_t owed(const uint8_t *recording, size_t length, int read_fails, char *out)
{
    size_t at = 0, count = 0, n = 0;
    ending = read_fails ? "unread\n" : "whole\n";
    while (at < length) {
        unsigned kind = recording[at];
        if (kind < 1 || kind > 7) {
            n += (size_t)sprintf(out + n, "%zu %02x unknown\n", count + 1, kind);
            ending = "unknown\n";
            read_fails = 0;
            break;
        }
        if (length - at < 5 + symbols_of[kind]) {
            if (!read_fails) {
                n += (size_t)sprintf(out + n, "%zu %02x short\n", count + 1, kind);
                ending = "cut\n";
            }
            break;
        }
        count++;
        n += a_line(out + n, count, kind, recording + at + 1);
        at += 5 + symbols_of[kind];
    }
    if (!read_fails)
        n += (size_t)sprintf(out + n, "end %zu\n", count);
    return n;
}

/* ---- a run and its check */

static char lines[MOST_LINES];

static void broken(const char *what, size_t due)
{
    fprintf(stderr, "the runner: %s\nowed:\n%.*s\nwritten:\n%.*s\nsaid:\n%.*s\n", what, (int)due, lines, (int)world.written, world.out,
            (int)world.told, world.said);
    abort();
}

static int says(const char *words)
{
    world.said[world.told < sizeof world.said ? world.told : sizeof world.said - 1] = 0;
    return strstr(world.said, words) != NULL;
}

static void run_once(void)
{
    int read_fails = world.read_fails_at <= world.length;
    world.at = world.written = world.told = world.spelt = 0;
    world.failed = 0;
    if (runner_main() != 0) {
        fprintf(stderr, "the runner ends with another status\n");
        abort();
    }
    world.word[world.spelt] = 0;
    size_t due = owed(world.recording, read_fails ? world.read_fails_at : world.length, read_fails, lines);
    if (strcmp(world.word, world.write_fails_at < due ? "unwritten\n" : ending) != 0)
        broken("another word on how it ended", due);
    if (world.write_fails_at < due) {
        if (world.written != world.write_fails_at || memcmp(world.out, lines, world.written) != 0)
            broken("before a write failed it wrote something else", due);
        if (!world.deaf && !says("standard output cannot be written"))
            broken("a failed write is not told", due);
        return;
    }
    if (world.written != due || memcmp(world.out, lines, due) != 0)
        broken("other lines than are owed", due);
    if (!world.deaf && world.failed != says("standard input cannot be read"))
        broken("a failed read is not told, or one is told that was none", due);
    if (!world.failed && world.told > 0 && !world.terminal)
        broken("something is told although all went well", due);
}

/* Whole access fields, of which the last is followed by the fuzzer's own bytes: these then stand where the runner's buffer ends. */
static size_t filler(uint8_t *at, size_t length)
{
    size_t n = 0;
    for (; n + 35 <= length; n += 35) {
        memset(at + n, 0, 35);
        at[n] = 5;
        at[n + 34] = n / 35 & 1;
    }
    return n;
}

/* Where CAPLATTICE_KEEP names a folder, the recording and the lines that it owes are left there, for the program as shipped. */
static void kept(const uint8_t *recording, size_t length)
{
    static unsigned number;
    const char *folder = getenv("CAPLATTICE_KEEP");
    if (!folder)
        return;
    size_t due = owed(recording, length, 0, lines);
    const struct { const char *ending; const void *at; size_t size; } files[] = {{"rec", recording, length}, {"lines", lines, due}};
    for (size_t i = 0; i < 2; i++) {
        char name[4096];
        snprintf(name, sizeof name, "%s/%u.%s", folder, number, files[i].ending);
        FILE *file = fopen(name, "wb");
        if (!file || fwrite(files[i].at, 1, files[i].size, file) != files[i].size || fclose(file)) {
            perror(name);
            exit(2);
        }
    }
    number++;
}

int LLVMFuzzerTestOneInput(const uint8_t *data, size_t size)
{
    static uint8_t recording[MOST];
    struct bytes b = {data, size};
    uint8_t how = taken(&b);
    size_t length = 0;
    if (how % 16 == 1)
        length = filler(recording, BUFFER - 35 * (taken(&b) % 32));
    if (how % 16 == 2)
        length = filler(recording, 2 * BUFFER - 35 * (taken(&b) % 32));
    size_t trouble = how & 0x60 ? taken_two(&b) : 0;
    size_t count = taken(&b);
    struct bytes pieces = {b.at, count < b.left ? count : b.left};
    b.at += pieces.left, b.left -= pieces.left;
    if (b.left > BUFFER)
        b.left = BUFFER;
    memcpy(recording + length, b.at, b.left);
    length += b.left;
    kept(recording, length);

    world.recording = recording;
    world.length = length;
    world.terminal = how >> 7;
    world.deaf = how % 16 > 11;
    world.interrupts = 0;
    world.read_fails_at = world.write_fails_at = SIZE_MAX;
    world.pieces = (struct bytes){NULL, 0};
    world.most = SIZE_MAX;
    run_once();

    world.interrupts = how >> 4 & 1;
    world.pieces = pieces;
    world.most = (const size_t[]){1, 41, 437, 4000, BUFFER}[count % 5];
    if (world.most == 1 && length > 8192)
        world.most = 41;
    world.error = (const int[]){EIO, EPIPE, ENOSPC, EBADF, EAGAIN, 9999, 1, -1}[count / 5 % 8];
    if (how & 0x20)
        world.read_fails_at = trouble % (length + 1);
    if (how & 0x40)
        world.write_fails_at = trouble;
    run_once();
    return 0;
}
