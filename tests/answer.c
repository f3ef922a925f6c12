/* Answers the cases on standard input, a line each, as the program `cases` does, but through include/engine.h and in threads: `answer THREADS`.
 *
 * Every thread has just the stack that the header names, and answers all lines while the others do; their answers must be equal, and are written once. Each strip is memory of
 * its own of just the length that a case names, filled with something other than 0, so that a tool such as valgrind sees every access beyond it. After an answer stands ` STRIP`
 * where a strip does not hold what documents 01 and 02 say.
 */
#include "engine.h"
#include <pthread.h>
#include <stdio.h>
#include <stdlib.h>
#include <string.h>

enum { THREADS_MOST = 16, FILLING = 0x5a };

/* Text that grows. */
typedef struct {
    char *bytes;
    size_t length, room;
} text;

/* What a case lends: elements of a size, in memory of their own. */
typedef struct {
    void *at;
    size_t length, size;
} lent;

/* How an operation's cases are answered: their first word, how many words they have (0 where that differs from case to case), and what answers one and says whether all strips
 * hold what they should. After the last word stands a null. */
typedef struct {
    const char *name;
    int words;
    int (*answer)(char **word, text *to);
} operation;

/* All of the input, for a thread, and what it answers. */
typedef struct {
    const text *input;
    text answers;
} work;

static void fail(const char *message) {
    fprintf(stderr, "answer: %s\n", message);
    exit(2);
}

/* Memory of just so many bytes, filled; of 0 bytes too it is a pointer that is not null. */
static void *filled(size_t bytes) {
    void *made = malloc(bytes ? bytes : 1);
    if (!made) {
        fail("no memory");
    }
    memset(made, FILLING, bytes);
    return made;
}

static int is_all(const void *strip, int value, size_t bytes) {
    const unsigned char *at = (const unsigned char *)strip;
    for (size_t i = 0; i < bytes; i++) {
        if (at[i] != value) {
            return 0;
        }
    }
    return 1;
}

static void add(text *to, const char *bytes, size_t length) {
    if (to->length + length > to->room) {
        to->room = 2 * (to->room + length);
        to->bytes = (char *)realloc(to->bytes, to->room);
        if (!to->bytes) {
            fail("no memory");
        }
    }
    memcpy(to->bytes + to->length, bytes, length);
    to->length += length;
}

static void add_number(text *to, const char *before, long long number) {
    char digits[40];
    add(to, digits, (size_t)snprintf(digits, sizeof digits, "%s%lld", before, number));
}

static size_t number_of(const char *word) {
    return (size_t)strtoull(word, NULL, 10);
}

/* Room for as many elements as a word says. */
static lent room(const char *word, size_t size) {
    lent made = {NULL, number_of(word), size};
    made.at = filled(made.length * size);
    return made;
}

/* The bytes of a word in hexadecimal; `-` for none. */
static lent given(const char *word) {
    lent made = {NULL, strcmp(word, "-") ? strlen(word) / 2 : 0, 1};
    uint8_t *bytes = (uint8_t *)filled(made.length);
    for (size_t i = 0; i < made.length; i++) {
        char pair[3] = {word[2 * i], word[2 * i + 1], 0};
        bytes[i] = (uint8_t)strtoul(pair, NULL, 16);
    }
    made.at = bytes;
    return made;
}

/* 1, 2, 3 and 62 touch nothing. */
static int is_untouched(uint32_t number) {
    return number == ENGINE_TABLE_TOO_SHORT || number == ENGINE_CALL_LIMIT_OUT_OF_RANGE || number == ENGINE_HEAP_TOO_LONG || number == ENGINE_REGISTERS_NOT_SIXTEEN;
}

/* Whether the lesson or the frames ran: they finished, or met a fault or a limit. */
static int is_run(uint32_t number) {
    return number == ENGINE_SUCCESS || (number >= ENGINE_NULL_REFERENCE && number <= ENGINE_OUTPUT_FULL) || number == ENGINE_REGISTER_OUT_OF_RANGE ||
           number == ENGINE_VALUE_OUT_OF_RANGE || number == ENGINE_FRAME_FAULT;
}

/* Whether a strip that is room to work in is all 0. */
static int is_cleared(lent strip, uint32_t number) {
    return is_all(strip.at, is_untouched(number) ? FILLING : 0, strip.length * strip.size);
}

/* Whether a strip is as it was behind its first elements. */
static int is_led(lent strip, size_t count) {
    return count <= strip.length && is_all((char *)strip.at + count * strip.size, FILLING, (strip.length - count) * strip.size);
}

/* Whether a strip that a run sets is as it was where the lesson did not run. */
static int is_set_by_run(lent strip, uint32_t number) {
    return is_run(number) || is_led(strip, 0);
}

static void add_digits(text *to, const uint8_t *bytes, size_t count) {
    for (size_t i = 0; i < count; i++) {
        char digits[3];
        snprintf(digits, sizeof digits, "%02x", bytes[i]);
        add(to, digits, 2);
    }
}

/* A strip that a run sets; `-` where the lesson did not run. */
static void add_set(text *to, lent strip, uint32_t number) {
    add(to, is_run(number) ? " " : " -", is_run(number) ? 1 : 2);
    add_digits(to, (const uint8_t *)strip.at, is_run(number) ? strip.length : 0);
}

/* The first elements of a strip, where there are any. */
static void add_bytes(text *to, const uint8_t *bytes, size_t count) {
    add(to, " : ", count ? 3 : 0);
    add_digits(to, bytes, count);
}

static void add_words(text *to, const uint32_t *words, size_t count) {
    for (size_t i = 0; i < count; i++) {
        add_number(to, i ? " " : " : ", words[i]);
    }
}

static void add_numbers(text *to, const int32_t *numbers, size_t count) {
    for (size_t i = 0; i < count; i++) {
        add_number(to, i ? " " : " : ", numbers[i]);
    }
}

/* Frames: bytes as they are, but `/` for a line feed. */
static void add_text(text *to, const uint8_t *bytes, size_t count) {
    add(to, " : ", count ? 3 : 0);
    for (size_t i = 0; i < count; i++) {
        char shown = bytes[i] == '\n' ? '/' : (char)bytes[i];
        add(to, &shown, 1);
    }
}

/* Frames in a case: `-` for no bytes; after `=` their digits; else they themselves, with `/` for each line feed. */
static lent given_frames(const char *word) {
    if (*word == '-' || *word == '=') {
        return given(*word == '=' ? word + 1 : word);
    }
    lent made = {NULL, strlen(word), 1};
    uint8_t *bytes = (uint8_t *)filled(made.length);
    for (size_t i = 0; i < made.length; i++) {
        bytes[i] = word[i] == '/' ? '\n' : (uint8_t)word[i];
    }
    made.at = bytes;
    return made;
}

/* What a run of frames is lent beside the frames and the tape; and what of it is written. */
typedef struct {
    lent heap, output, registers, stack;
} strips;

/* A case of frames: parts of a budget and a price each, from a record on, which is all 0 in a first part. */
typedef struct {
    lent frames, tape;
    strips lent;
    engine_frame_record record;
    size_t calls, parts;
    char **part;
    int is_begun;
} frames_case;

static const char *next(char ***word) {
    if (!**word) {
        fail("a line is no case");
    }
    return *(*word)++;
}

static size_t next_number(char ***word) {
    return number_of(next(word));
}

static void next_parts(frames_case *c, char ***word) {
    c->parts = next_number(word);
    c->part = *word;
    for (size_t k = 0; k < 2 * c->parts; k++) {
        next(word);
    }
}

/* A strip that is 0 but at the places that a case names. */
static void next_held(char ***word, lent strip) {
    memset(strip.at, 0, strip.length * strip.size);
    for (size_t count = next_number(word); count > 0; count--) {
        size_t at = next_number(word);
        const char *value = next(word);
        if (at >= strip.length) {
            fail("a line is no case");
        }
        if (strip.size == sizeof(int32_t)) {
            ((int32_t *)strip.at)[at] = (int32_t)strtoll(value, NULL, 10);
        } else {
            ((uint64_t *)strip.at)[at] = strtoull(value, NULL, 10);
        }
    }
}

static lent copied(lent strip) {
    lent made = {filled(strip.length * strip.size), strip.length, strip.size};
    memcpy(made.at, strip.at, strip.length * strip.size);
    return made;
}

static strips all_copied(strips s) {
    strips made = {copied(s.heap), copied(s.output), copied(s.registers), copied(s.stack)};
    return made;
}

static void free_all(strips s) {
    free(s.heap.at);
    free(s.output.at);
    free(s.registers.at);
    free(s.stack.at);
}

/* Whether the elements of two strips are the same from a place on and before another. */
static int is_same(lent strip, lent other, size_t from, size_t to) {
    return from <= to && to <= strip.length && !memcmp((char *)strip.at + from * strip.size, (char *)other.at + from * strip.size, (to - from) * strip.size);
}

static int is_all_same(lent strip, lent other) {
    return is_same(strip, other, 0, strip.length);
}

static int is_zero(lent strip) {
    return is_all(strip.at, 0, strip.length * strip.size);
}

/* Whether a part leaves what it should: a refusal all as it was; every other end but 50 heap and stack strip and the record all 0; and the output strip is as it was but for the
 * numbers that the part printed, which stand behind those printed before. */
static int is_left_right(strips before, strips after, size_t printed, engine_frames_answer a) {
    if (!is_run(a.number)) {
        return is_all_same(after.heap, before.heap) && is_all_same(after.output, before.output) && is_all_same(after.registers, before.registers) &&
               is_all_same(after.stack, before.stack) && !a.frames && !a.words && !a.printed && is_all(&a.pause, 0, sizeof a.pause);
    }
    int is_ended_right = a.number == ENGINE_BUDGET_SPENT || (is_zero(after.heap) && is_zero(after.stack) && is_all(&a.pause, 0, sizeof a.pause));
    return is_ended_right && is_same(after.output, before.output, 0, printed) && is_same(after.output, before.output, a.printed, after.output.length);
}

static engine_frames_answer part_of(const frames_case *c, size_t k, engine_frame_record record) {
    engine_frame_limits limits = {(uint32_t)number_of(c->part[2 * k]), c->calls, (uint32_t)number_of(c->part[2 * k + 1])};
    strips s = c->lent;
    if (k == 0 && !c->is_begun) {
        return engine_run_frames(c->frames.at, c->frames.length, limits, s.heap.at, s.heap.length, s.output.at, s.output.length, s.registers.at, s.registers.length, c->tape.at,
                                 c->tape.length, s.stack.at, s.stack.length);
    }
    return engine_continue_frames(c->frames.at, c->frames.length, record, limits, s.heap.at, s.heap.length, s.output.at, s.output.length, s.registers.at, s.registers.length,
                                  c->tape.at, c->tape.length, s.stack.at, s.stack.length);
}

static uint64_t entry_of(lent strip, size_t at) {
    return strip.size == sizeof(uint64_t) ? ((uint64_t *)strip.at)[at] : ((uint32_t *)strip.at)[at];
}

/* How many entries of a strip are not 0, and a sum of them with their places. */
static void add_sum(text *to, lent strip) {
    const uint64_t modulus = 2147483647, factor = 65537;
    uint64_t sum = 0;
    long long count = 0;
    for (size_t i = 0; i < strip.length; i++) {
        uint64_t entry = entry_of(strip, i);
        if (entry) {
            sum = (factor * sum + i + 1) % modulus;
            sum = (factor * sum + entry % modulus) % modulus;
            count++;
        }
    }
    add_number(to, " ", count);
    add_number(to, " ", (long long)sum);
}

static void add_record(text *to, engine_frame_record r) {
    const unsigned long long numbers[] = {r.line, r.height, r.calls, r.words, r.printed, r.tape, r.marks, r.frames, r.unspent};
    for (size_t k = 0; k < sizeof numbers / sizeof *numbers; k++) {
        add_number(to, " ", (long long)numbers[k]);
    }
}

static void add_frames_answer(text *to, const frames_case *c, engine_frames_answer a, size_t part) {
    add_number(to, "", a.number);
    add_number(to, " ", (long long)a.position);
    add_number(to, " ", (long long)a.frames);
    add_number(to, " ", (long long)a.words);
    add_number(to, " ", (long long)a.printed);
    add_number(to, " ", (long long)part);
    add_set(to, c->lent.registers, a.number);
    if (a.number == ENGINE_BUDGET_SPENT) {
        add(to, " @", 2);
        add_record(to, a.pause);
        add_sum(to, c->lent.heap);
        add_sum(to, c->lent.stack);
    }
    if (is_run(a.number)) {
        add_numbers(to, (int32_t *)c->lent.output.at + c->record.printed, a.printed - c->record.printed);
    }
}

/* Carries the parts out, each on what the last one left, up to the first that ends otherwise than in 50. */
static int answer_parts(const frames_case *c, text *to) {
    engine_frames_answer a = {ENGINE_BUDGET_SPENT, 0, 0, 0, 0, c->record};
    size_t k = 0;
    int is_right = 1;
    while (k < c->parts && a.number == ENGINE_BUDGET_SPENT) {
        size_t printed = a.pause.printed;
        strips before = all_copied(c->lent);
        a = part_of(c, k++, a.pause);
        is_right = is_right && is_left_right(before, c->lent, printed, a);
        free_all(before);
    }
    add_frames_answer(to, c, a, k);
    free(c->frames.at);
    free(c->tape.at);
    free_all(c->lent);
    return is_right;
}

/* CALLS HEAP OUTPUT REGISTERS STACK TAPE PARTS FRAMES */
static int answer_frames(char **word, text *to) {
    frames_case c;
    memset(&c, 0, sizeof c);
    word++;
    c.calls = next_number(&word);
    c.lent.heap = room(next(&word), sizeof(int32_t));
    c.lent.output = room(next(&word), sizeof(int32_t));
    c.lent.registers = room(next(&word), sizeof(uint8_t));
    c.lent.stack = room(next(&word), sizeof(uint64_t));
    c.tape = given(next(&word));
    next_parts(&c, &word);
    c.frames = given_frames(next(&word));
    return answer_parts(&c, to);
}

/* RECORD CALLS HEAP OUTPUT REGISTERS STACK TAPE PARTS HEAP STACK FRAMES, of the registers and, after the parts, of heap and stack what they hold */
static int answer_continue(char **word, text *to) {
    frames_case c;
    memset(&c, 0, sizeof c);
    word++;
    c.is_begun = 1;
    c.record.line = next_number(&word);
    c.record.height = next_number(&word);
    c.record.calls = next_number(&word);
    c.record.words = next_number(&word);
    c.record.printed = next_number(&word);
    c.record.tape = next_number(&word);
    c.record.marks = next_number(&word);
    c.record.frames = next_number(&word);
    c.record.unspent = next_number(&word);
    c.calls = next_number(&word);
    c.lent.heap = room(next(&word), sizeof(int32_t));
    c.lent.output = room(next(&word), sizeof(int32_t));
    c.lent.registers = given(next(&word));
    c.lent.stack = room(next(&word), sizeof(uint64_t));
    c.tape = given(next(&word));
    next_parts(&c, &word);
    next_held(&word, c.lent.heap);
    next_held(&word, c.lent.stack);
    c.frames = given_frames(next(&word));
    return answer_parts(&c, to);
}

/* [words/write operations: what words/operations.txt says */
static int answer_read(char **word, text *to) {
    lent source = given(word[2]);
    lent table = room(word[1], sizeof(uint32_t));
    engine_read_answer a = engine_read(source.at, source.length, table.at, table.length);
    int is_right = is_cleared(table, a.number);
    add_number(to, "", (long long)a.number);
    add_number(to, " ", (long long)a.position);
    add_number(to, " ", (long long)a.tokens);
    add_number(to, " ", (long long)a.nodes);
    free(source.at);
    free(table.at);
    return is_right;
}

static int answer_check(char **word, text *to) {
    lent source = given(word[2]);
    lent table = room(word[1], sizeof(uint32_t));
    engine_check_answer a = engine_check(source.at, source.length, table.at, table.length);
    int is_right = is_cleared(table, a.number);
    add_number(to, "", (long long)a.number);
    add_number(to, " ", (long long)a.position);
    add_number(to, " ", (long long)a.classes);
    free(source.at);
    free(table.at);
    return is_right;
}

static int answer_menu(char **word, text *to) {
    lent source = given(word[3]);
    lent table = room(word[1], sizeof(uint32_t));
    lent strip = room(word[2], sizeof(uint32_t));
    engine_check_answer a = engine_menu(source.at, source.length, table.at, table.length, strip.at, strip.length);
    int is_right = is_cleared(table, a.number) && is_led(strip, a.classes);
    add_number(to, "", (long long)a.number);
    add_number(to, " ", (long long)a.position);
    add_number(to, " ", (long long)a.classes);
    add_words(to, strip.at, a.classes);
    free(source.at);
    free(table.at);
    free(strip.at);
    return is_right;
}

static int answer_run(char **word, text *to) {
    lent source = given(word[8]);
    lent table = room(word[1], sizeof(uint32_t));
    engine_limits limits = {(uint32_t)number_of(word[2]), (size_t)number_of(word[3])};
    lent heap = room(word[4], sizeof(int32_t));
    lent output = room(word[5], sizeof(int32_t));
    lent registers = room(word[6], sizeof(uint8_t));
    lent tape = given(word[7]);
    engine_run_answer a = engine_run(source.at, source.length, table.at, table.length, limits, heap.at, heap.length,
                                     output.at, output.length, registers.at, registers.length, tape.at, tape.length);
    int is_right = is_cleared(table, a.number) && is_cleared(heap, a.number) && is_led(output, a.printed) && is_set_by_run(registers, a.number);
    add_number(to, "", (long long)a.number);
    add_number(to, " ", (long long)a.position);
    add_number(to, " ", (long long)a.steps);
    add_number(to, " ", (long long)a.climbs);
    add_number(to, " ", (long long)a.words);
    add_set(to, registers, a.number);
    add_numbers(to, output.at, a.printed);
    free(source.at);
    free(table.at);
    free(heap.at);
    free(output.at);
    free(registers.at);
    free(tape.at);
    return is_right;
}

static int answer_join(char **word, text *to) {
    lent source = given(word[3]);
    lent table = room(word[1], sizeof(uint32_t));
    lent library = given(word[4]);
    lent strip = room(word[2], sizeof(uint8_t));
    engine_write_answer a = engine_join(source.at, source.length, table.at, table.length, library.at, library.length,
                                        strip.at, strip.length);
    int is_right = is_cleared(table, a.number) && is_led(strip, a.count);
    add_number(to, "", (long long)a.number);
    add_number(to, " ", (long long)a.position);
    add_number(to, " ", (long long)a.count);
    add_bytes(to, strip.at, a.count);
    free(source.at);
    free(table.at);
    free(library.at);
    free(strip.at);
    return is_right;
}

static int answer_print(char **word, text *to) {
    lent source = given(word[3]);
    lent table = room(word[1], sizeof(uint32_t));
    lent strip = room(word[2], sizeof(uint8_t));
    engine_write_answer a = engine_print(source.at, source.length, table.at, table.length, strip.at, strip.length);
    int is_right = is_cleared(table, a.number) && is_led(strip, a.count);
    add_number(to, "", (long long)a.number);
    add_number(to, " ", (long long)a.position);
    add_number(to, " ", (long long)a.count);
    add_bytes(to, strip.at, a.count);
    free(source.at);
    free(table.at);
    free(strip.at);
    return is_right;
}

static int answer_encode(char **word, text *to) {
    lent source = given(word[3]);
    lent table = room(word[1], sizeof(uint32_t));
    lent frames = room(word[2], sizeof(uint8_t));
    engine_write_answer a = engine_encode(source.at, source.length, table.at, table.length, frames.at, frames.length);
    int is_right = is_cleared(table, a.number) && is_led(frames, a.count);
    add_number(to, "", (long long)a.number);
    add_number(to, " ", (long long)a.position);
    add_number(to, " ", (long long)a.count);
    add_text(to, frames.at, a.count);
    free(source.at);
    free(table.at);
    free(frames.at);
    return is_right;
}

static const operation operations[] = {
    {"read", 3, answer_read},
    {"check", 3, answer_check},
    {"menu", 4, answer_menu},
    {"run", 9, answer_run},
    {"join", 5, answer_join},
    {"print", 4, answer_print},
    {"encode", 4, answer_encode},
    {"frames", 0, answer_frames},
    {"continue", 0, answer_continue},
};
/* words/write] */

/* The words of a line, and a null behind them; a line has at most one word for every two of its bytes. */
static char **split(char *line, int *count) {
    char **word = (char **)filled((strlen(line) / 2 + 2) * sizeof *word), *rest = line;
    for (*count = 0; (word[*count] = strtok_r(rest, " ", &rest)); (*count)++) {
    }
    return word;
}

static void answer(char *line, text *to) {
    int count;
    char **word = split(line, &count);
    for (size_t k = 0; k < sizeof operations / sizeof *operations; k++) {
        if ((operations[k].words == 0 || count == operations[k].words) && !strcmp(word[0], operations[k].name)) {
            int is_right = operations[k].answer(word, to);
            add(to, is_right ? "\n" : " STRIP\n", is_right ? 1 : 7);
            free(word);
            return;
        }
    }
    fail("a line is no case");
}

static void *answer_all(void *given) {
    work *w = (work *)given;
    char *own = (char *)filled(w->input->length + 1), *rest = own, *line;
    memcpy(own, w->input->bytes, w->input->length);
    own[w->input->length] = 0;
    while ((line = strtok_r(rest, "\n", &rest))) {
        answer(line, &w->answers);
    }
    free(own);
    return NULL;
}

int main(int count, char **argument) {
    int threads = count == 2 ? atoi(argument[1]) : 0;
    if (threads < 1 || threads > THREADS_MOST) {
        fail("usage: answer THREADS < CASES");
    }
    static char chunk[65536];
    text input = {NULL, 0, 0};
    for (size_t got; (got = fread(chunk, 1, sizeof chunk, stdin)) > 0;) {
        add(&input, chunk, got);
    }
    if (input.length == 0) {
        fail("there are no cases");
    }
    static work works[THREADS_MOST];
    pthread_t thread[THREADS_MOST];
    pthread_attr_t attributes;
    pthread_attr_init(&attributes);
    if (pthread_attr_setstacksize(&attributes, ENGINE_STACK_BYTES)) {
        fail("no stack of this size");
    }
    for (int k = 0; k < threads; k++) {
        works[k].input = &input;
        if (pthread_create(&thread[k], &attributes, answer_all, &works[k])) {
            fail("no thread");
        }
    }
    for (int k = 0; k < threads; k++) {
        pthread_join(thread[k], NULL);
    }
    for (int k = 1; k < threads; k++) {
        if (works[k].answers.length != works[0].answers.length || memcmp(works[k].answers.bytes, works[0].answers.bytes, works[0].answers.length)) {
            fail("two threads answer differently");
        }
    }
    fwrite(works[0].answers.bytes, 1, works[0].answers.length, stdout);
    for (int k = 0; k < threads; k++) {
        free(works[k].answers.bytes);
    }
    free(input.bytes);
    pthread_attr_destroy(&attributes);
    return 0;
}
