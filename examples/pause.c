/* Runs the lesson on standard input as frames, in parts, and between two parts looks at a flag that an interrupt sets. Prints its numbers
 * and how it ended: `number position frames words`. */
#include "engine.h"
#include <inttypes.h>
#include <signal.h>
#include <stdio.h>

enum { HEAP = 4096, OUTPUT = 256, PART = 100000, PARTS = 40000, STACK = ENGINE_STACK_ENTRIES };

static uint8_t source[ENGINE_SOURCE_MOST + 1], frames[ENGINE_FRAMES_MOST], registers[ENGINE_REGISTERS], tape[1];
static uint32_t table[ENGINE_TABLE_WORDS];
static int32_t heap[HEAP], output[OUTPUT];
static uint64_t stack[STACK];
static volatile sig_atomic_t is_stopped;

static void stop(int number) {
    is_stopped = number;
}

int main(void) {
    size_t length = fread(source, 1, sizeof source, stdin);
    engine_write_answer written = engine_encode(source, length, table, ENGINE_TABLE_WORDS, frames, sizeof frames);
    if (written.number != ENGINE_SUCCESS) {
        printf("= %u %zu 0 0\n", (unsigned)written.number, written.position);
        return 1;
    }
    signal(SIGINT, stop);
    engine_frame_limits limits = {PART, ENGINE_CALLS_MOST, 1};
    engine_frames_answer answer = engine_run_frames(frames, written.count, limits, heap, HEAP, output, OUTPUT, registers, sizeof registers,
                                                    tape, 0, stack, STACK);
    for (int part = 1; answer.number == ENGINE_BUDGET_SPENT && part < PARTS && !is_stopped; part++) {
        answer = engine_continue_frames(frames, written.count, answer.pause, limits, heap, HEAP, output, OUTPUT, registers,
                                        sizeof registers, tape, 0, stack, STACK);
    }
    for (size_t i = 0; i < answer.printed; i++) {
        printf("%d\n", (int)output[i]);
    }
    printf("= %u %" PRIu64 " %" PRIu64 " %zu\n", (unsigned)answer.number, answer.position, answer.frames, answer.words);
    return answer.number == ENGINE_SUCCESS ? 0 : 1;
}
