// Fuzzes the C call: random bytes, words in any order, texts of forms, and such texts damaged, of 0 to 49,200 bytes.
//
//   fuzz SEED COUNT [PROGRAM EVERY]    tries so many texts, and gives each EVERY-th one to the program too (through a file in target/);
//                                      status 0 only without a fault
//   fuzz --show SEED NUMBER            writes one text
//
// Text and answer end where a page begins that may not be touched, and another such page lies before them; the text cannot be written during the
// call. Checked are what the call returns, what it writes (against text_by_hand, depths included), that the rest of the answer and what lies
// before it stay as they were, and that the program writes the same. The texts are fixed by the seed.
#define _GNU_SOURCE
#include "by_hand.h"
#include "tally.h"
#include "terms.h"

#include <inttypes.h>
#include <signal.h>
#include <stdarg.h>
#include <stdbool.h>
#include <stdio.h>
#include <stdlib.h>
#include <string.h>
#include <sys/mman.h>
#include <unistd.h>

#if __has_include(<valgrind/memcheck.h>)
#include <valgrind/memcheck.h>
#else
#define VALGRIND_MAKE_MEM_NOACCESS(bytes, length) ((void)(bytes), (void)(length))
#define VALGRIND_MAKE_MEM_UNDEFINED(bytes, length) ((void)(bytes), (void)(length))
#define VALGRIND_MAKE_MEM_DEFINED(bytes, length) ((void)(bytes), (void)(length))
#define VALGRIND_CHECK_MEM_IS_DEFINED(bytes, length) ((void)(bytes), (void)(length))
#endif

enum { LONGEST = 49200, MOST_ROOM = 50000, SHOWN = 10, REFUSALS = 24 };

enum family { ANY_BYTES, LINE_BYTES, WORDS, FORMS, DAMAGED, FAMILIES };

static const char *const family_names[FAMILIES] = {"any bytes", "line bytes", "words", "forms", "damaged"};

static uint64_t state;

static long between(long low, long high)
{
    return random_between(&state, low, high);
}

static bool one_in(long many)
{
    return between(1, many) == 1;
}

// ---- The text.

static char text[LONGEST + 2000];
static size_t length, target;

__attribute__((format(printf, 1, 2))) static void add(const char *format, ...)
{
    va_list values;
    va_start(values, format);
    length += (size_t)vsnprintf(text + length, sizeof text - length, format, values);
    va_end(values);
}

// Most texts are short, and some as long as can be.
static size_t any_length(void)
{
    if (one_in(8))
        return (size_t)between(TALLY_LONGEST_TEXT - 3, TALLY_LONGEST_TEXT + 3);
    static const long longest[] = {40, 600, 5000, LONGEST};
    return (size_t)between(0, longest[between(0, 3)]);
}

static void any_bytes(void)
{
    while (length < target)
        text[length++] = (char)between(0, 255);
}

static char line_byte(void)
{
    static const char bytes[] = "((()))     --+\n\n\n00112233456789abcdefghijklmnopqrstuvwxyzABCDEFGHIJKLMNOPQRSTUVWXYZ";
    return bytes[between(0, sizeof bytes - 2)];
}

static void line_bytes(void)
{
    while (length < target)
        text[length++] = line_byte();
}

static void words(void)
{
    static const char *const list[] = {
        "(", ")", " ", "\n", ")\n", ")\n(", "nan", "inf", "zero", "term", "mark", "back", "set", "reopen", "ask", "+", "-", "0", "1", "53",
        "-1074", "4096", "9999999999", "12345678901", "-0", "free", "binary64", "N", "D", "i", "t", "(80000000)", "(00000000 80000000)",
        "(set)\n", "(ask 3 free N)\n", "(mark 0 i)\n", "(term + 3 3 (a0000000))\n"};
    while (length < target)
        add("%s", list[between(0, sizeof list / sizeof *list - 1)]);
}

// What the forms so far have come to, so that most of the next are in turn.
static struct {
    long terms, trail, asks, center, spread, most_bits, patience;
    bool is_set, is_sound;
} sheet;

// Is the next form to be one that is refused? Never in a text that is to be sound.
static bool is_bad(long many)
{
    return !sheet.is_sound && one_in(many);
}

static long some_precision(void)
{
    if (is_bad(200))
        return one_in(2) ? 0 : 4097;
    if (one_in(3))
        return sheet.most_bits >= 32 ? 32 * between(1, sheet.most_bits / 32) + between(-1, 0) : 1;
    return between(1, sheet.most_bits);
}

static uint32_t some_limb(void)
{
    static const uint32_t often[] = {0, 1, 0x80000000, 0xffffffff, 0xfffffffe};
    return one_in(3) ? often[between(0, 4)] : (uint32_t)next_random(&state);
}

// As many limbs as the precision takes, with the top bit 1 and those below the precision 0; now and then otherwise.
static void add_significand(long precision)
{
    bool is_odd = is_bad(200);
    long limbs = (precision + 31) / 32 + (is_odd ? between(-1, 1) : 0);
    for (long i = 0; i < limbs || i == 0; i++) {
        uint32_t limb = some_limb();
        if (i == 0 && !is_odd)
            limb &= (uint32_t)(0xffffffffu << (32 * limbs - precision));
        if (i >= limbs - 1 && !is_odd)
            limb |= 0x80000000;
        add("%s%08" PRIx32, i == 0 ? "(" : " ", limb);
    }
    add(")");
}

static long some_exponent(void)
{
    return is_bad(300) ? between(-2, 1) * 1000000001 : sheet.center + between(-sheet.spread, sheet.spread);
}

// The last line again, where it is a term, with the other sign.
static bool add_opposite(void)
{
    static const char start[] = "(term + ";
    size_t begin = length == 0 ? 0 : length - 1;
    while (begin > 0 && text[begin - 1] != '\n')
        begin--;
    size_t line = length - begin;
    if (line < sizeof start || memcmp(text + begin, "(term ", 6) != 0)
        return false;
    memcpy(text + length, text + begin, line);
    text[length + 6] = text[length + 6] == '+' ? '-' : '+';
    length += line;
    return true;
}

static void add_term(void)
{
    char sign = one_in(2) ? '+' : '-';
    sheet.terms++;
    if (one_in(40))
        add("(nan)\n");
    else if (one_in(40))
        add("(inf %c)\n", sign);
    else if (one_in(20))
        add("(zero %c)\n", sign);
    else if (!one_in(5) || !add_opposite()) {
        long precision = some_precision();
        add("(term %c %ld %ld ", sign, some_exponent(), precision);
        add_significand(precision);
        add(")\n");
    }
}

static void add_mark(void)
{
    long place = sheet.terms == 0 || is_bad(500) ? between(0, 1100) : between(0, sheet.terms - 1);
    sheet.trail++;
    add("(mark %ld %c)\n", place, is_bad(500) ? 'x' : "iiiitto"[between(0, 6)]);
}

static char some_mode(void)
{
    return is_bad(100) ? 'Q' : "NDUZA"[between(0, 4)];
}

static void add_ask(void)
{
    static const char *const names[] = {"binary16", "bfloat16", "binary32", "binary64", "extended80", "binary128", "binary256", "binary8"};
    long width = one_in(20) ? between(1, 4096) : is_bad(100) ? between(0, 1) * 4097 : between(1, 130);
    sheet.asks++;
    if (one_in(3))
        add("(ask %ld %ld %c)\n", width, is_bad(50) ? some_exponent() * 2 : some_exponent() + between(-200, 20), some_mode());
    else if (one_in(2))
        add("(ask %s %c)\n", names[is_bad(50) ? 7 : between(0, 6)], some_mode());
    else
        add("(ask %ld free %c)\n", width, some_mode());
}

static void add_back(void)
{
    sheet.trail -= sheet.trail > 0;
    add("(back)\n");
}

static void set_or_reopen(void)
{
    add(sheet.is_set ? "(reopen)\n" : "(set)\n");
    sheet.is_set = !sheet.is_set;
    sheet.trail = 0;
}

static void add_call(void)
{
    if (is_bad(1000))
        sheet.is_set = !sheet.is_set;
    if (sheet.is_set && (one_in(4) || (sheet.asks == 32 && !one_in(3))))
        set_or_reopen();
    else if (sheet.is_set)
        add_ask();
    else if (one_in(sheet.patience) || (sheet.trail == 256 && !one_in(4)))
        set_or_reopen();
    else if (one_in(10) && (sheet.trail > 0 || one_in(50)))
        add_back();
    else
        add_mark();
}

static void start_sheet(void)
{
    static const long spreads[] = {5, 40, 300, 5000, 100000000}, bits[] = {1, 32, 64, 300, 4096}, patiences[] = {5, 100, 10000};
    memset(&sheet, 0, sizeof sheet);
    sheet.spread = spreads[between(0, 4)];
    sheet.most_bits = bits[between(0, 4)];
    sheet.is_sound = one_in(2);
    sheet.patience = patiences[between(0, 2)];
    sheet.center = one_in(4) ? between(-1000000000, 1000000000) : between(-1200, 1200);
}

// Terms, then calls. A line that does not fit is cut, so that the text ends within it; else the last line is whole.
static void forms(void)
{
    start_sheet();
    long terms = between(0, 60);
    if (one_in(20)) {
        terms = TALLY_MOST_TERMS + between(-1, 1);
        sheet.most_bits = 32;
        sheet.is_sound = true;
        target = TALLY_LONGEST_TEXT;
    }
    while (sheet.terms < terms && length < target * 3 / 4)
        add_term();
    for (size_t i = 0; i < 5 && length < target; i++)
        add_mark();
    while (length < target && sheet.asks < 33)
        add_call();
    if (one_in(10) && length > target)
        length = target;
}

// ---- Damage.

static size_t some_place(void)
{
    return length == 0 ? 0 : (size_t)between(0, (long)length - 1);
}

static void remove_bytes(size_t at, size_t count)
{
    count = at + count > length ? length - at : count;
    memmove(text + at, text + at + count, length - at - count);
    length -= count;
}

static void insert_bytes(size_t at, const char *bytes, size_t count)
{
    if (length + count > LONGEST)
        return;
    memmove(text + at + count, text + at, length - at);
    memcpy(text + at, bytes, count);
    length += count;
}

static size_t line_start(size_t at)
{
    while (at > 0 && text[at - 1] != '\n')
        at--;
    return at;
}

static size_t line_length(size_t start)
{
    const char *newline = memchr(text + start, '\n', length - start);
    return newline == NULL ? length - start : (size_t)(newline - text) - start + 1;
}

// Takes a line out and puts it in front of another, or leaves it where it is too.
static void move_line(bool copy)
{
    static char line[LONGEST + 2000];
    size_t from = line_start(some_place()), count = line_length(from);
    memcpy(line, text + from, count);
    if (!copy)
        remove_bytes(from, count);
    insert_bytes(line_start(some_place()), line, count);
}

static void damage_once(void)
{
    char byte = one_in(2) ? line_byte() : (char)between(0, 255);
    size_t at = some_place();
    switch (between(0, 5)) {
    case 0:
        if (length > 0)
            text[at] = byte;
        break;
    case 1: remove_bytes(at, one_in(2) ? 1 : (size_t)between(1, 30)); break;
    case 2: insert_bytes(at, &byte, 1); break;
    case 3: move_line(false); break;
    case 4: move_line(true); break;
    default: length = one_in(3) ? at : length; break;
    }
}

static void damaged(void)
{
    forms();
    for (long times = between(1, 4); times > 0; times--)
        damage_once();
}

static enum family make_text(uint64_t seed, long number)
{
    static void (*const makers[FAMILIES])(void) = {any_bytes, line_bytes, words, forms, damaged};
    static const enum family often[] = {ANY_BYTES, LINE_BYTES, WORDS, FORMS, FORMS, DAMAGED, DAMAGED, DAMAGED, DAMAGED};
    state = seed * 0x9e3779b97f4a7c15u + (uint64_t)number;
    state = next_random(&state);
    enum family family = often[between(0, sizeof often / sizeof *often - 1)];
    target = any_length();
    length = 0;
    makers[family]();
    if (length > LONGEST)
        length = LONGEST;
    return family;
}

// ---- Memory between two pages that may not be touched.

struct region {
    uint8_t *start, *end;
};

static struct region make_region(size_t room)
{
    size_t page = (size_t)sysconf(_SC_PAGESIZE), size = (room + page - 1) / page * page;
    uint8_t *bytes = mmap(NULL, size + 2 * page, PROT_NONE, MAP_PRIVATE | MAP_ANONYMOUS, -1, 0);
    if (bytes == MAP_FAILED || mprotect(bytes + page, size, PROT_READ | PROT_WRITE) != 0) {
        perror("fuzz");
        exit(2);
    }
    return (struct region){bytes + page, bytes + page + size};
}

static void protect(struct region region, int rights)
{
    if (mprotect(region.start, (size_t)(region.end - region.start), rights) != 0) {
        perror("fuzz");
        exit(2);
    }
}

static struct region text_region, answer_region;

// What stands in the region before the call: a byte that its place fixes.
static uint8_t filling(const uint8_t *at)
{
    return (uint8_t)(0xa5 ^ (at - answer_region.start) * 29);
}

static void fill(void)
{
    for (uint8_t *at = answer_region.start; at < answer_region.end; at++)
        *at = filling(at);
}

static bool is_filling(const uint8_t *from, const uint8_t *to)
{
    for (; from < to; from++)
        if (*from != filling(from))
            return false;
    return true;
}

// ---- The call, and what it must do.

static uint64_t current_seed;
static volatile long current_number;
static long faults, texts[FAMILIES], answered[FAMILIES], refused[REFUSALS], by_program, too_deep;

static void fault(const char *what)
{
    faults++;
    if (faults <= SHOWN)
        printf("FAULT in text %ld: %s (fuzz --show %" PRIu64 " %ld)\n", current_number, what, current_seed, current_number);
}

static void touched(int signal)
{
    (void)signal;
    char line[100];
    int count = snprintf(line, sizeof line, "FAULT in text %ld: memory outside text or answer was touched\n", current_number);
    _exit(write(STDOUT_FILENO, line, (size_t)count) < 0 ? 3 : 1);
}

static size_t some_room(void)
{
    if (!one_in(12))
        return TALLY_LEAST_ROOM;
    static const long ends[][2] = {{0, 3}, {0, TALLY_LEAST_ROOM}, {TALLY_LEAST_ROOM - 3, TALLY_LEAST_ROOM + 3}, {TALLY_LEAST_ROOM, MOST_ROOM}};
    const long *choice = ends[between(0, 3)];
    return (size_t)between(choice[0], choice[1]);
}

// Makes the call into the last `room` bytes of the region.
static int64_t call(size_t room)
{
    uint8_t *bytes = text_region.end - length, *answer = answer_region.end - room;
    memcpy(bytes, text, length);
    fill();
    protect(text_region, PROT_READ);
    VALGRIND_MAKE_MEM_NOACCESS(text_region.start, (size_t)(bytes - text_region.start));
    VALGRIND_MAKE_MEM_NOACCESS(answer_region.start, (size_t)(answer - answer_region.start));
    VALGRIND_MAKE_MEM_UNDEFINED(answer, room);
    int64_t written = tally_text(bytes, length, answer, room);
    if (written > 0 && (uint64_t)written <= room)
        VALGRIND_CHECK_MEM_IS_DEFINED(answer, (size_t)written);
    VALGRIND_MAKE_MEM_DEFINED(text_region.start, (size_t)(text_region.end - text_region.start));
    VALGRIND_MAKE_MEM_DEFINED(answer_region.start, (size_t)(answer_region.end - answer_region.start));
    protect(text_region, PROT_READ | PROT_WRITE);
    return written;
}

// The number of the refusal on the last line, or 0.
static long refusal_in(const uint8_t *answer, size_t written)
{
    size_t at = written < 2 ? 0 : written - 1;
    while (at > 0 && answer[at - 1] != '\n')
        at--;
    return written - at > 4 && memcmp(answer + at, "(no ", 4) == 0 ? strtol((const char *)answer + at + 4, NULL, 10) : 0;
}

static void check_by_hand(const uint8_t *answer, int64_t written, size_t room)
{
    static uint8_t right[MOST_ROOM];
    int64_t right_count = text_by_hand((const uint8_t *)text, length, right, room, WITH_DEPTHS);
    if (right_count == -1)
        too_deep++;
    else if (written != right_count)
        fault("another count or status than by hand");
    else if (written > 0 && memcmp(answer, right, (size_t)written) != 0)
        fault("another answer than by hand");
}

static void check_by_program(const char *program, const uint8_t *answer, int64_t written)
{
    static const char too_long[] = "(no 22 0 0)\n", path[] = "target/fuzz-text";
    static char command[4200], found[MOST_ROOM];
    FILE *file = fopen(path, "w");
    if (file == NULL || fwrite(text, 1, length, file) != length || fclose(file) != 0) {
        perror(path);
        exit(2);
    }
    snprintf(command, sizeof command, "exec '%s' <%s", program, path);
    FILE *stream = popen(command, "r");
    size_t count = stream == NULL ? 0 : fread(found, 1, sizeof found, stream);
    if (stream == NULL || pclose(stream) != 0)
        fault("the program does not end well");
    const void *right = written == TALLY_TEXT_TOO_LONG ? (const void *)too_long : answer;
    size_t right_count = written == TALLY_TEXT_TOO_LONG ? sizeof too_long - 1 : (size_t)written;
    by_program++;
    if (count != right_count || memcmp(found, right, count) != 0)
        fault("the program writes something else");
}

static void check_memory(const uint8_t *answer, int64_t written, size_t room)
{
    size_t kept_from = written > 0 ? (size_t)written : 0;
    if (written > (int64_t)room)
        fault("more bytes told than there is room");
    else if (!is_filling(answer + kept_from, answer + room))
        fault("the rest of the answer was touched");
    if (!is_filling(answer_region.start, answer))
        fault("what lies before the answer was touched");
}

static void count_text(enum family family, const uint8_t *answer, int64_t written)
{
    long number = written < 0 ? -written : refusal_in(answer, (size_t)written);
    texts[family]++;
    answered[family] += number == 0;
    if (number > 0 && number < REFUSALS)
        refused[number]++;
}

static void try_text(enum family family, const char *program)
{
    size_t room = some_room();
    const uint8_t *answer = answer_region.end - room;
    int64_t written = call(room);
    check_memory(answer, written, room);
    check_by_hand(answer, written, room);
    if (program != NULL && written != TALLY_ANSWER_TOO_SHORT)
        check_by_program(program, answer, written);
    count_text(family, answer, written);
}

static void report(void)
{
    long all = 0;
    for (int family = 0; family < FAMILIES; family++) {
        printf("%-12s %7ld texts, %ld with no refusal\n", family_names[family], texts[family], answered[family]);
        all += texts[family];
    }
    printf("refusals    ");
    for (long number = 0; number < REFUSALS; number++)
        if (refused[number] > 0)
            printf(" %ld: %ld", number, refused[number]);
    printf("\n%-12s %7ld texts, %ld given to the program too, %ld too deep to sum by hand, %ld faults\n", "all", all, by_program, too_deep, faults);
}

static int fuzz(long count, const char *program, long every)
{
    // one byte more than the longest, so that no slice fills its region
    text_region = make_region(LONGEST + 1);
    answer_region = make_region(MOST_ROOM + 1);
    signal(SIGSEGV, touched);
    signal(SIGBUS, touched);
    for (current_number = 0; current_number < count; current_number++) {
        enum family family = make_text(current_seed, current_number);
        try_text(family, program != NULL && current_number % every == 0 ? program : NULL);
    }
    report();
    return faults == 0 ? 0 : 1;
}

int main(int words_count, char **arguments)
{
    if (words_count == 4 && strcmp(arguments[1], "--show") == 0) {
        make_text(strtoull(arguments[2], NULL, 10), strtol(arguments[3], NULL, 10));
        return fwrite(text, 1, length, stdout) == length ? 0 : 2;
    }
    if (words_count != 3 && words_count != 5) {
        fprintf(stderr, "usage: fuzz SEED COUNT [PROGRAM EVERY], or fuzz --show SEED NUMBER\n");
        return 2;
    }
    current_seed = strtoull(arguments[1], NULL, 10);
    long every = words_count == 5 ? strtol(arguments[4], NULL, 10) : 1;
    return fuzz(strtol(arguments[2], NULL, 10), words_count == 5 ? arguments[3] : NULL, every < 1 ? 1 : every);
}
