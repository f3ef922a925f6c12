/* The lesson engine: operations on a MiniJava lesson, for C and C++ on x86-64 Linux.
 *
 * Link libengine.a or libengine.so, which ./build writes into target/lib/. The functions of the library are proved to answer what the definitions say, for all inputs;
 * this header, like everything outside the library, is tested and not proved.
 *
 * What the caller owes. A strip is a pointer and the number of its elements. The pointer is not null, not even for 0 elements, and aligned for its type; the elements are
 * initialised, readable and, where the pointer is not to const, writable; and nothing that is lent to be written overlaps anything else that is lent. A function keeps no
 * pointer. Nothing else is asked: every lesson, every length and every number is answered.
 *
 * Threads. The library has no state of its own: any number of threads may call it at once, each with strips of its own.
 *
 * Stack. A call takes at most ENGINE_STACK_BYTES of stack, whatever the lesson is. It allocates nothing, and calls nothing but memset.
 *
 * Time. All but the runs end within milliseconds (Join within thirty, of which hundreds of classes with alike names take most). A run takes a time proportional to its steps or frames, which the budget bounds: a few nanoseconds each.
 *
 * A long run that can be interrupted is one of frames in parts: engine_run_frames with a budget of 100,000, say, which is spent within a millisecond or two, and for as long as
 * the answer is 50 engine_continue_frames with as much again; between two parts the caller looks at a flag of its own. It ends as one run with all these budgets does.
 * examples/pause.c does so.
 *
 * Positions count the bytes of the lesson from 0, that of 66 those of the library, and those of a run of frames the bytes of the frames. Every answer has a number and a position:
 * 0 at position 0 for success, else one of the numbers below.
 */
#ifndef ENGINE_H
#define ENGINE_H

#include <stddef.h>
#include <stdint.h>

#ifdef __cplusplus
extern "C" {
#endif

/* [words/write constants: what words/operations.txt says */
#define ENGINE_VERSION 5 /* the version of these declarations; it goes up when one of them or its meaning changes */
#define ENGINE_TABLE_WORDS 16384 /* the work table has at least so many words */
#define ENGINE_SOURCE_MOST 16384 /* a lesson has at most so many bytes; a longer one is refused, and never read past its end */
#define ENGINE_HEAP_MOST 16384 /* the heap strip has at most so many words */
#define ENGINE_CALLS_MOST 64 /* the call limit is 1 to this */
#define ENGINE_REGISTERS 16 /* the register strip has exactly so many bytes */
#define ENGINE_CLASSES_MOST 2048 /* no lesson has more classes: a strip of so many words is long enough for Menu */
#define ENGINE_JOIN_MOST 33281 /* no joined text has more bytes: a strip of so many is long enough for Join, and so is one of the lengths of lesson and library and 513 more */
#define ENGINE_PRINT_MOST 18432 /* no printed text has more bytes, nor more than the lesson and 2,048: a strip of so many is long enough for Print */
#define ENGINE_FRAMES_MOST 373417 /* the frames of no lesson have more bytes: a strip of so many is long enough for Encode */
#define ENGINE_STACK_ENTRIES 140000 /* the stack strip of frames has at least so many entries */
#define ENGINE_STACK_BYTES 1048576 /* a call takes at most so many bytes of stack */
/* words/write] */

/* docs/REFUSALS.md has for each number where it stands and something that gives it. */
enum engine_number {
    /* [words/write numbers: what words/refusals.txt says */
    ENGINE_TABLE_TOO_SHORT = 1, /* The work table has fewer than 16,384 words. */
    ENGINE_CALL_LIMIT_OUT_OF_RANGE = 2, /* The call limit is not 1 to 64. */
    ENGINE_HEAP_TOO_LONG = 3, /* The heap strip has more than 16,384 words. */
    ENGINE_STRIP_TOO_SHORT = 4, /* The strip has fewer words than the lesson has classes beside main's. */
    ENGINE_SOURCE_TOO_LONG = 10, /* The lesson has more than 16,384 bytes. */
    ENGINE_NO_TOKEN = 11, /* No word, number or mark of the language begins with this byte. */
    ENGINE_COMMENT_NOT_CLOSED = 12, /* A block comment is opened and never closed; comments nest, so each opening needs its own closing. */
    ENGINE_NAME_TOO_LONG = 13, /* A name has more than 255 letters, digits and underscores. */
    ENGINE_LITERAL_TOO_LARGE = 14, /* A number is larger than 2147483647, or one with a point larger than 2147483.647. */
    ENGINE_TOO_MANY_TOKENS = 15, /* The lesson has more than 2,048 words, numbers and marks. */
    ENGINE_NOT_IN_GRAMMAR = 16, /* No program goes on like this from here: something is missing, misplaced or too much. */
    ENGINE_TOO_DEEP = 17, /* A statement or an expression lies inside more than 63 others. */
    ENGINE_CLASS_REPEATED = 20, /* Another class before this one has the same name. */
    ENGINE_PARENT_UNKNOWN = 21, /* The lesson has no class of the name after `extends`; the main class cannot be extended. */
    ENGINE_CHAIN_ENDLESS = 22, /* The class extends itself, or its parents lead into a loop. */
    ENGINE_FIELD_REPEATED = 23, /* The class has another field of the same name. */
    ENGINE_TYPE_UNKNOWN = 24, /* The lesson has no class of this name; the main class is no type. */
    ENGINE_METHOD_REPEATED = 25, /* The class has another method of the same name. */
    ENGINE_BAD_REDECLARATION = 26, /* A method of this name in a class above has other parameter types, or a result that this one's does not fit. */
    ENGINE_VARIABLE_REPEATED = 27, /* The method has another parameter or local of the same name. */
    ENGINE_TOO_MANY_VARIABLES = 28, /* The method has more than 32 parameters and locals together. */
    ENGINE_NAME_UNKNOWN = 30, /* No local, parameter or field of this name can be seen here; main sees none at all. */
    ENGINE_WRONG_TYPE = 31, /* This part has another type than its place needs. */
    ENGINE_METHOD_UNKNOWN = 32, /* Neither the class nor a class above it has a method of this name. */
    ENGINE_ARGUMENT_COUNT = 33, /* The method takes another number of arguments. */
    ENGINE_THIS_IN_MAIN = 34, /* Main belongs to no object, so it has no `this`. */
    ENGINE_NULL_REFERENCE = 40, /* There is no object or array here: the reference is null. */
    ENGINE_INDEX_OUT_OF_RANGE = 41, /* The index is negative, or not below the array's length. */
    ENGINE_NEGATIVE_SIZE = 42, /* An array cannot have a negative length. */
    ENGINE_BUDGET_SPENT = 50, /* The budget of steps or frames is spent, and another is due. */
    ENGINE_HEAP_FULL = 51, /* The heap strip has no room for this object or array. */
    ENGINE_CALLS_FULL = 52, /* As many calls are open as the call limit allows. */
    ENGINE_OUTPUT_FULL = 53, /* The output strip has no room for another number. */
    ENGINE_LEADING_ZERO = 60, /* A number begins with 0 and another digit, which means another number in Java. */
    ENGINE_TEXT_TOO_LONG = 61, /* The strip is too short for the printed lesson. */
    ENGINE_REGISTERS_NOT_SIXTEEN = 62, /* The register strip has not exactly 16 bytes. */
    ENGINE_REGISTER_OUT_OF_RANGE = 63, /* The cable has registers 0 to 15 only. */
    ENGINE_VALUE_OUT_OF_RANGE = 64, /* A register takes 0 to 255 only. */
    ENGINE_NOT_THREE_DIGITS = 65, /* A number with a point has other than three digits behind it. */
    ENGINE_LIBRARY_REFUSED = 66, /* The library has something other than class declarations, or Read's rules and bounds do not hold for it. */
    ENGINE_JOINED_TOO_LONG = 67, /* The strip is too short for the lesson and the classes of the library. */
    ENGINE_FRAMES_TOO_SHORT = 68, /* The strip is too short for the frames of the lesson, or the stack strip has fewer than 140,000 entries. */
    ENGINE_OTHER_FORM = 69, /* The line is something other than ten lower-case hexadecimal digits and a line feed. */
    ENGINE_FRAME_FAULT = 70, /* The code table does not allow this frame, by its code, its operand or a value that it takes; or the stack strip is full, or the line is past the last. */
    ENGINE_RECORD_UNFIT = 71, /* The record does not fit the frames, the limits or the strips, or its counts and the new budget are together above 4294967295. */
    ENGINE_PRICE_UNFIT = 72, /* The price of a call is neither 1 nor 10. */
    /* words/write] */
    ENGINE_SUCCESS = 0
};

/* The version of the library: ENGINE_VERSION, where this header belongs to it. */
uint32_t engine_version(void);

/* In every operation that takes it `table` is room to work in. What it holds before does not matter; afterwards each of its words is 0, unless the answer is one of 1, 2, 3
 * and 62: these touch nothing that is lent. */

/* [words/write operations: what words/operations.txt says */
/* The answer of Read; the counts are 0 after a refusal. */
typedef struct {
    uint32_t number;
    size_t position;
    size_t tokens;
    size_t nodes; /* statements and expressions */
} engine_read_answer;

/* The answer of Check and of Menu. */
typedef struct {
    uint32_t number;
    size_t position;
    size_t classes; /* beside main's; 0 after a refusal */
} engine_check_answer;

/* The answer of Join, of Print and of Encode. */
typedef struct {
    uint32_t number;
    size_t position;
    size_t count; /* how many bytes lead the strip; 0 after a refusal */
} engine_write_answer;

/* The limits of a run. Two more are the lengths of the heap strip and of the output strip. */
typedef struct {
    uint32_t budget; /* steps: every statement and every expression that begins takes one */
    size_t calls; /* how many calls may be open at once, main not counted */
} engine_limits;

/* The answer of Run. The counts are those of the run up to its end, also where a fault or a limit ended it; they are 0 where the lesson was
 * refused and never ran. */
typedef struct {
    uint32_t number;
    size_t position;
    size_t steps;
    uint64_t climbs; /* how many classes were visited to find the methods of all calls */
    size_t words; /* of the heap strip: 1 for each object and array, and 1 for each field and element */
    size_t printed; /* how many numbers lead the output strip */
} engine_run_answer;

/* The limits of a part of a run of frames: budgets and prices may differ from part to part. Two more are the lengths of the heap strip and
 * of the output strip. */
typedef struct {
    uint32_t budget; /* what the frames of this part may cost: a call the price, every other frame 1 */
    size_t calls; /* how many calls may be open at once */
    uint32_t price; /* 1 or 10 */
} engine_frame_limits;

/* Where a run of frames is that spent its budget, for its next part; all 0 after every other end. */
typedef struct {
    size_t line; /* the one that is due, from 0 */
    size_t height; /* how many values lie on the stack strip, from entry 2176 on */
    size_t calls; /* how many calls are open, 34 entries each, from entry 0 of the stack strip on */
    size_t words;
    size_t printed;
    size_t tape; /* how many samples were taken */
    size_t marks; /* since the last sample was due, 0 to 99 */
    uint64_t frames;
    uint64_t unspent; /* what is left of the budget: less than the frame costs that is due */
} engine_frame_record;

/* The answer of a part of a run of frames. The counts are those of all parts up to here; they are 0 where the frames were refused. */
typedef struct {
    uint32_t number;
    uint64_t position; /* in bytes of the frames. That of 70 may lie past them, and above 4294967295 */
    uint64_t frames; /* how many were carried out */
    size_t words; /* of the heap strip, as in the answer of Run */
    size_t printed; /* how many numbers lead the output strip */
    engine_frame_record pause;
} engine_frames_answer;

/* Is the lesson in the grammar, and within the bounds? Refuses with 1, 10 to 17, 60 and 65. */
engine_read_answer engine_read(const uint8_t *source, size_t source_length, uint32_t *table, size_t table_length);

/* May the lesson run: are its names and types right too? Refuses as Read does, and with 20 to 34. */
engine_check_answer engine_check(const uint8_t *source, size_t source_length, uint32_t *table, size_t table_length);

/* Where do the names of the classes stand? After success `strip` begins with the position of the name of each class beside main's, each
 * once, a parent before the classes that extend it and otherwise as they stand in the lesson; its rest is unchanged, and so is all of it
 * after a refusal. Refuses as Check does, and with 4. */
engine_check_answer engine_menu(const uint8_t *source, size_t source_length, uint32_t *table, size_t table_length, uint32_t *strip,
                                size_t strip_length);

/* Checks the lesson and runs it. Refuses with 1, 2, 3, 62 and as Check does; then the run ends in 0, in a fault (40 to 42, 63, 64) or at a
 * limit (50 to 53).
 *   heap       room for objects and arrays. All 0 afterwards, also where Check refuses.
 *   output     begins with the printed numbers afterwards; its rest is unchanged, and so is all of it where the lesson is refused.
 *   registers  what the 16 registers hold at the end of the run, which sets them to 0 first; unchanged where the lesson is refused.
 *   tape       the samples that come in over the cable, one with every hundredth step; a length of 0 for none. */
engine_run_answer engine_run(const uint8_t *source, size_t source_length, uint32_t *table, size_t table_length, engine_limits limits,
                             int32_t *heap, size_t heap_length, int32_t *output, size_t output_length, uint8_t *registers,
                             size_t registers_length, const uint8_t *tape, size_t tape_length);

/* Puts a library under the lesson. A library is zero or more class declarations, which Read's rules and bounds hold for. After success
 * `strip` begins with the lesson, a line feed, then each class of the library whose name no class of the lesson has, main's included, from
 * its `class` to its closing brace, a line feed after each; its rest is unchanged, and so is all of it after a refusal. All other
 * operations take that text. Refuses as Read does; with 66, whose position counts the bytes of the library; and last with 67. */
engine_write_answer engine_join(const uint8_t *source, size_t source_length, uint32_t *table, size_t table_length, const uint8_t *library,
                                size_t library_length, uint8_t *strip, size_t strip_length);

/* Writes the lesson in the house layout. After success `strip` begins with its tokens, a line feed after each `;`, `{` and `}` and a space
 * after every other, without comments and with just the parentheses that its tree needs; its rest is unchanged, and so is all of it after a
 * refusal. A text of at most 16,384 bytes is accepted again, with the same tree. Refuses as Check does, and last with 61. */
engine_write_answer engine_print(const uint8_t *source, size_t source_length, uint32_t *table, size_t table_length, uint8_t *strip,
                                 size_t strip_length);

/* Writes the lesson as frames: stack code for a reader, a frame a line. docs/FRAMES.md has the code table. After success `frames` begins
 * with them; its rest is unchanged, and so is all of it after a refusal. Refuses as Check does, and last with 68. */
engine_write_answer engine_encode(const uint8_t *source, size_t source_length, uint32_t *table, size_t table_length, uint8_t *frames,
                                  size_t frames_length);

/* Runs frames, those of a lesson or any others, from their first line on. Refuses with 2, 3, 62, 72, 68 and 69, in this order, which touch
 * nothing; then the run ends in 0, in a fault (40 to 42, 63, 64, 70) or at a limit (50 to 53). The frames of a lesson never end in 70;
 * where neither they nor Run end in 50 both end in the same number, with the same printed numbers, heap words and registers, and the frames
 * are at most four times the steps, and one.
 *   heap       room for objects and arrays. What it holds before does not matter. All 0 afterwards; after 50 it is left for the next part.
 *   output     begins with the printed numbers afterwards; its rest is unchanged.
 *   registers  what the 16 registers hold at the end of the run, which sets them to 0 first.
 *   tape       the samples that come in over the cable, one with every hundredth mark; a length of 0 for none.
 *   stack      room for calls and values; as with `heap`. */
engine_frames_answer engine_run_frames(const uint8_t *frames, size_t frames_length, engine_frame_limits limits, int32_t *heap,
                                       size_t heap_length, int32_t *output, size_t output_length, uint8_t *registers,
                                       size_t registers_length, const uint8_t *tape, size_t tape_length, uint64_t *stack,
                                       size_t stack_length);

/* Goes on with a run of frames that ended in 50: `from` is the pause of that answer, heap, output, registers and stack strip are as it left
 * them, and frames, tape and call limit are the same. Parts that are run so, whatever their budgets, end as one run with all of them does.
 * Refuses as engine_run_frames does, and last with 71, which touches nothing: the record does not fit what is lent (docs/FRAMES.md), or its
 * frames, its unspent budget and the new one are together above 4294967295. Another record or other strips are answered too, and may lead
 * to 70. */
engine_frames_answer engine_continue_frames(const uint8_t *frames, size_t frames_length, engine_frame_record from,
                                            engine_frame_limits limits, int32_t *heap, size_t heap_length, int32_t *output,
                                            size_t output_length, uint8_t *registers, size_t registers_length, const uint8_t *tape,
                                            size_t tape_length, uint64_t *stack, size_t stack_length);
/* words/write] */

#ifdef __cplusplus
}
#endif

#endif
