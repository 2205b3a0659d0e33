/*
 * Calls the library over files in memory, and watches it. Linked to libitv.a with its malloc, realloc
 * and free wrapped (-Wl,--wrap=malloc and so on).
 *
 *   library_calls answers     calls that are read from standard input
 *   library_calls refuse      the same, with requests for memory refused
 *   library_calls times N     the first of them N times
 *
 * A call begins with a line of four numbers: how many bytes the words, the paths, the sizes and the
 * contents have. These follow, the sizes as this machine writes numbers of type size_t.
 *
 * answers: each call is made three times: over memory that ends where pages begin that nobody may
 * touch, and in which what is handed over cannot be written; over blocks of malloc; and with half
 * the room that its texts need. All must answer alike, and nothing may be written past a text. The
 * answer is written out: a line with the status and both lengths, and both texts.
 *
 * refuse: each request is refused alone, and with all that come after it. A call must end with status
 * 3 and without output, but for the first lines of digest, or else as if nothing were refused, though
 * notes may be missing. Each block must be freed in the end. A line says how many requests there are,
 * how many calls ended with status 3, and how many of these say that memory was short.
 *
 * times: a line says how many seconds the calls took, and how many processor seconds.
 */
#define _GNU_SOURCE
#include <itv.h>
#include <stdio.h>
#include <stdlib.h>
#include <string.h>
#include <sys/mman.h>
#include <time.h>
#include <unistd.h>

enum { FILLED = 0xA5 };

/* Ends with what is wrong. */
static void fails(const char *what)
{
    fprintf(stderr, "library_calls: %s\n", what);
    exit(1);
}

/* Requests for memory while a call is watched: how many there were, which of them are refused, and how
 * many blocks are not freed yet. */
static struct {
    int on;
    size_t requests, first, last, blocks;
} watch;

void *__real_malloc(size_t size);
void *__real_realloc(void *block, size_t size);
void __real_free(void *block);

static int is_refused(void)
{
    if (!watch.on)
        return 0;
    watch.requests++;
    return watch.first <= watch.requests && watch.requests <= watch.last;
}

void *__wrap_malloc(size_t size)
{
    void *block = is_refused() ? NULL : __real_malloc(size);
    watch.blocks += watch.on && block;
    return block;
}

void *__wrap_realloc(void *block, size_t size)
{
    void *moved = is_refused() ? NULL : __real_realloc(block, size);
    watch.blocks += watch.on && !block && moved;
    return moved;
}

void __wrap_free(void *block)
{
    watch.blocks -= watch.on && block;
    __real_free(block);
}

/* Bytes: a beginning, and how many they are. */
struct bytes {
    uint8_t *at;
    size_t size;
};

/* Where bytes lie: the whole that is mapped, or the block of malloc. */
struct place {
    struct bytes bytes;
    void *whole;
    size_t mapped;
};

static size_t page(void)
{
    return (size_t)sysconf(_SC_PAGESIZE);
}

/* Puts bytes right before a page that nobody may touch, or into a block of their size. */
static struct place put(struct bytes from, int guarded, int written)
{
    struct place place = {{NULL, from.size}, NULL, 0};
    if (guarded) {
        size_t room = (from.size + page() - 1) / page() * page();
        place.mapped = room + page();
        place.whole = mmap(NULL, place.mapped, PROT_READ | PROT_WRITE,
                           MAP_PRIVATE | MAP_ANONYMOUS, -1, 0);
        if (place.whole == MAP_FAILED)
            fails("no memory");
        place.bytes.at = (uint8_t *)place.whole + room - from.size;
        memcpy(place.bytes.at, from.at, from.size);
        if (mprotect((uint8_t *)place.whole + room, page(), PROT_NONE) ||
            (room && mprotect(place.whole, room, written ? PROT_READ | PROT_WRITE : PROT_READ)))
            fails("no page can be guarded");
    } else {
        place.whole = malloc(from.size);
        place.bytes.at = place.whole;
        if (from.size)
            memcpy(place.bytes.at, from.at, from.size);
        if (!place.whole && !(place.bytes.at = place.whole = malloc(1)))
            fails("no memory");
    }
    return place;
}

static void take_away(struct place place)
{
    if (place.mapped)
        munmap(place.whole, place.mapped);
    else
        free(place.whole);
}

/* Bytes for a room, none of which a text is likely to have. */
static struct bytes filled(size_t size)
{
    struct bytes bytes = {malloc(size + 1), size};
    if (!bytes.at)
        fails("no memory");
    memset(bytes.at, FILLED, size);
    return bytes;
}

/* What is handed over: words, paths, sizes and contents. */
struct call {
    struct bytes parts[4];
};

/* What a call gives, with as much of its texts as there was room for. */
struct answer {
    uint8_t status;
    struct itv_lengths lengths;
    struct bytes output, notes;
};

/* Makes a call, with its memory guarded or in blocks, and rooms of these sizes. */
static struct answer answer_to(struct call call, int guarded, size_t output, size_t notes)
{
    struct answer answer = {0, {0, 0}, filled(output), filled(notes)};
    struct place places[6];
    int each;
    for (each = 0; each < 4; each++)
        places[each] = put(call.parts[each], guarded, 0);
    places[4] = put(answer.output, guarded, 1);
    places[5] = put(answer.notes, guarded, 1);
    watch.on = 1;
    answer.status = itv_run(
        (const char *)places[0].bytes.at, places[0].bytes.size, (const char *)places[1].bytes.at,
        places[1].bytes.size, (const size_t *)(const void *)places[2].bytes.at,
        places[2].bytes.size / sizeof(size_t), places[3].bytes.at, places[3].bytes.size,
        places[4].bytes.at, output, places[5].bytes.at, notes, &answer.lengths);
    watch.on = 0;
    memcpy(answer.output.at, places[4].bytes.at, output);
    memcpy(answer.notes.at, places[5].bytes.at, notes);
    for (each = 0; each < 6; each++)
        take_away(places[each]);
    if (watch.blocks)
        fails("a block is not freed");
    return answer;
}

static void drop(struct answer answer)
{
    free(answer.output.at);
    free(answer.notes.at);
}

static size_t least(size_t one, size_t other)
{
    return one < other ? one : other;
}

/* Fails where a room does not hold the beginning of a text, or something was written after it. */
static void holds(struct bytes room, struct bytes text)
{
    size_t each, shown = least(room.size, text.size);
    if (memcmp(room.at, text.at, shown))
        fails("a call answers otherwise");
    for (each = shown; each < room.size; each++)
        if (room.at[each] != FILLED)
            fails("something is written after a text");
}

/* Makes a call with room for its texts, which are then all that the answer has. */
static struct answer whole_answer_to(struct call call, int guarded)
{
    struct answer first = answer_to(call, guarded, 0, 0), whole;
    whole = answer_to(call, guarded, first.lengths.output, first.lengths.notes);
    if (memcmp(&first.lengths, &whole.lengths, sizeof whole.lengths) || first.status != whole.status)
        fails("a call answers otherwise with other room");
    drop(first);
    return whole;
}

/* Fails where a call with other room or other memory gives another answer. */
static void same(struct call call, int guarded, size_t output, size_t notes, struct answer whole)
{
    struct answer other = answer_to(call, guarded, output, notes);
    if (other.status != whole.status || other.lengths.output != whole.output.size ||
        other.lengths.notes != whole.notes.size)
        fails("a call answers otherwise");
    holds(other.output, whole.output);
    holds(other.notes, whole.notes);
    drop(other);
}

static void answers(struct call call)
{
    struct answer whole = whole_answer_to(call, 1);
    same(call, 0, whole.output.size + 9, whole.notes.size + 9, whole);
    same(call, 1, whole.output.size / 2, whole.notes.size / 2, whole);
    printf("%d %zu %zu\n", whole.status, whole.output.size, whole.notes.size);
    fwrite(whole.output.at, 1, whole.output.size, stdout);
    fwrite(whole.notes.at, 1, whole.notes.size, stdout);
    fflush(stdout);
    drop(whole);
}

/* Whether a text ends with these words. */
static int ends_with(struct bytes room, size_t length, const char *words)
{
    size_t size = strlen(words);
    return length <= room.size && size <= length && !memcmp(room.at + length - size, words, size);
}

/* Whether a call to which memory was refused ended as it may. */
static int is_good(struct answer given, struct answer whole, int lists)
{
    size_t output = given.lengths.output;
    if (given.status == ITV_NO_MEMORY)
        return !output || (lists && output <= whole.output.size &&
                           !memcmp(given.output.at, whole.output.at, output));
    return given.status == whole.status && output == whole.output.size &&
           given.lengths.notes <= whole.notes.size &&
           !memcmp(given.output.at, whole.output.at, output);
}

/* Makes a call with some of its requests refused, and returns whether it ran out of memory: 0, 1, or
 * 2 where it also says so. */
static int refused(struct call call, struct answer whole, size_t first, size_t last)
{
    static const char SAYS[] = "itv: out of memory\n";
    struct answer given;
    int short_of = 0;
    watch.requests = 0;
    watch.first = first;
    watch.last = last;
    given = answer_to(call, 0, whole.output.size, whole.notes.size + sizeof SAYS);
    watch.first = watch.last = 0;
    if (!is_good(given, whole, !strcmp((const char *)call.parts[0].at, "digest"))) {
        fprintf(stderr, "with the requests from %zu to %zu refused: status %d\n", first, last,
                given.status);
        fails("a call ends otherwise");
    }
    if (given.status == ITV_NO_MEMORY)
        short_of = 1 + ends_with(given.notes, given.lengths.notes, SAYS);
    drop(given);
    return short_of;
}

static void refuse(struct call call)
{
    struct answer whole = whole_answer_to(call, 0);
    size_t each, requests, ended = 0, said = 0;
    int alone, on;
    watch.requests = 0;
    same(call, 0, whole.output.size, whole.notes.size, whole);
    requests = watch.requests;
    for (each = 1; each <= requests; each++) {
        alone = refused(call, whole, each, each);
        on = refused(call, whole, each, (size_t)-1);
        ended += (alone > 0) + (on > 0);
        said += (alone > 1) + (on > 1);
    }
    printf("%zu %zu %zu\n", requests, ended, said);
    fflush(stdout);
    drop(whole);
}

/* What a clock says, in seconds. */
static double now_by(clockid_t clock)
{
    struct timespec now;
    clock_gettime(clock, &now);
    return (double)now.tv_sec + 1e-9 * (double)now.tv_nsec;
}

static void times(struct call call, unsigned long count)
{
    static uint8_t output[1 << 16], notes[1 << 16];
    struct itv_lengths lengths;
    struct bytes *parts = call.parts;
    double begin = now_by(CLOCK_MONOTONIC), used = now_by(CLOCK_PROCESS_CPUTIME_ID);
    while (count--)
        itv_run((const char *)parts[0].at, parts[0].size, (const char *)parts[1].at, parts[1].size,
                (const size_t *)(const void *)parts[2].at, parts[2].size / sizeof(size_t),
                parts[3].at, parts[3].size, output, sizeof output, notes, sizeof notes, &lengths);
    printf("%.6f %.6f\n", now_by(CLOCK_MONOTONIC) - begin, now_by(CLOCK_PROCESS_CPUTIME_ID) - used);
}

/* Reads a call, or returns 0 where there is none. */
static int read_call(struct call *call)
{
    int each;
    if (scanf("%zu %zu %zu %zu", &call->parts[0].size, &call->parts[1].size, &call->parts[2].size,
              &call->parts[3].size) != 4)
        return 0;
    getchar();
    for (each = 0; each < 4; each++) {
        call->parts[each].at = malloc(call->parts[each].size + 1);
        if (!call->parts[each].at ||
            fread(call->parts[each].at, 1, call->parts[each].size, stdin) != call->parts[each].size)
            fails("a call is cut off");
        call->parts[each].at[call->parts[each].size] = 0;
    }
    return 1;
}

int main(int count, char **words)
{
    struct call call;
    int each;
    if (count < 2)
        fails("answers, refuse or times N");
    while (read_call(&call)) {
        if (!strcmp(words[1], "answers"))
            answers(call);
        else if (!strcmp(words[1], "refuse"))
            refuse(call);
        else if (count == 3 && !strcmp(words[1], "times"))
            times(call, strtoul(words[2], NULL, 10));
        else
            fails("answers, refuse or times N");
        for (each = 0; each < 4; each++)
            free(call.parts[each].at);
    }
    return 0;
}
