/* Runs the lesson on standard input under bayrun's limits, and prints its numbers and how it ended: `number position steps words`. */
#include "engine.h"
#include <stdio.h>

enum { HEAP = 4096, OUTPUT = 256, BUDGET = 100000 };

/* A byte more than a lesson may have, so that a longer one is refused and not cut off. */
static uint8_t source[ENGINE_SOURCE_MOST + 1];
static uint32_t table[ENGINE_TABLE_WORDS];
static int32_t heap[HEAP], output[OUTPUT];
static uint8_t registers[ENGINE_REGISTERS], tape[1];

int main(void) {
    if (engine_version() != ENGINE_VERSION) {
        fputs("the library does not belong to this header\n", stderr);
        return 2;
    }
    size_t length = fread(source, 1, sizeof source, stdin);
    engine_limits limits = {BUDGET, ENGINE_CALLS_MOST};
    engine_run_answer answer =
        engine_run(source, length, table, ENGINE_TABLE_WORDS, limits, heap, HEAP, output, OUTPUT, registers, sizeof registers, tape, 0);
    for (size_t i = 0; i < answer.printed; i++) {
        printf("%d\n", (int)output[i]);
    }
    printf("= %u %zu %zu %zu\n", (unsigned)answer.number, answer.position, answer.steps, answer.words);
    return answer.number == ENGINE_SUCCESS ? 0 : 1;
}
