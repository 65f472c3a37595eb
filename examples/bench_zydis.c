/* Decodes instructions in turn by Zydis, for comparison: `bench_zydis COUNT HEX..` prints the count, the nanoseconds with operands, and
 * those without. */
#define _POSIX_C_SOURCE 200809L
#include <Zydis/Zydis.h>
#include <stdint.h>
#include <stdio.h>
#include <stdlib.h>
#include <string.h>
#include <time.h>

#define MOST 64

static uint64_t now(void) {
    struct timespec t;
    clock_gettime(CLOCK_MONOTONIC, &t);
    return (uint64_t)t.tv_sec * 1000000000u + (uint64_t)t.tv_nsec;
}

int main(int words, char **word) {
    static uint8_t bytes[MOST][15];
    unsigned long long count = words > 1 ? strtoull(word[1], NULL, 10) : 0;
    int samples = words - 2;
    uint64_t time[2];
    ZydisDecoder decoder;
    ZydisDecodedInstruction insn;
    ZydisDecodedOperand operands[ZYDIS_MAX_OPERAND_COUNT];
    if (samples < 1 || samples > MOST) return 2;
    for (int i = 0; i < samples; i++) {
        for (size_t at = 0; at < 15 && 2 * at + 1 < strlen(word[i + 2]); at++) {
            char digits[3] = { word[i + 2][2 * at], word[i + 2][2 * at + 1], 0 };
            bytes[i][at] = (uint8_t)strtoul(digits, NULL, 16);
        }
    }
    ZydisDecoderInit(&decoder, ZYDIS_MACHINE_MODE_LONG_64, ZYDIS_STACK_WIDTH_64);
    for (int way = 0; way < 2; way++) {
        uint64_t start = now();
        for (unsigned long long i = 0; i < count; i++) {
            const uint8_t *at = bytes[i % (unsigned)samples];
            ZyanStatus status = way == 0 ? ZydisDecoderDecodeFull(&decoder, at, 15, &insn, operands)
                                         : ZydisDecoderDecodeInstruction(&decoder, NULL, at, 15, &insn);
            if (!ZYAN_SUCCESS(status)) return 1;
        }
        time[way] = now() - start;
    }
    printf("%llu %llu %llu\n", count, (unsigned long long)time[0], (unsigned long long)time[1]);
    return 0;
}
