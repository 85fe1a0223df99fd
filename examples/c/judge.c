/* Judges a witness of a BTOR2 model:
 *
 *   $ cc -std=c11 -Iinclude examples/c/judge.c FOLDER/libhwtool.a -o judge
 *   $ ./judge examples/toggler.btor2 examples/toggler.witness
 *   accepted 2 frames
 *   $ ./judge examples/counter.btor2 examples/counter-short.witness
 *   not accepted: kind 1, first 0, second 0, why 0
 */
#include "hwtool.h"

#include <inttypes.h>
#include <stdio.h>
#include <stdlib.h>

/* The bytes of a file, and how many they are. */
static uint8_t *read_all(const char *name, size_t *length) {
    FILE *file = fopen(name, "rb");
    if (file == NULL || fseek(file, 0, SEEK_END) != 0) {
        perror(name);
        exit(3);
    }
    *length = (size_t)ftell(file);
    rewind(file);
    uint8_t *bytes = malloc(*length + 1);
    if (bytes == NULL || fread(bytes, 1, *length, file) != *length) {
        perror(name);
        exit(3);
    }
    fclose(file);
    return bytes;
}

int main(int argc, char **argv) {
    if (argc != 3) {
        fprintf(stderr, "judge MODEL WITNESS\n");
        return 4;
    }
    size_t model_length, witness_length;
    uint8_t *model = read_all(argv[1], &model_length);
    uint8_t *witness = read_all(argv[2], &witness_length);
    struct hwtool_verdict verdict;
    struct hwtool_refusal refusal;
    uint32_t status = hwtool_check_btor(model, model_length, witness, witness_length, &verdict, &refusal);
    free(model);
    free(witness);
    if (status == HWTOOL_DONE && verdict.kind == HWTOOL_ACCEPTED) {
        printf("accepted %" PRIu64 " frames\n", verdict.first);
        return 0;
    }
    if (status == HWTOOL_DONE) {
        printf("not accepted: kind %" PRIu32 ", first %" PRIu64 ", second %" PRIu64 ", why %" PRIu32 "\n", verdict.kind,
               verdict.first, verdict.second, verdict.why);
        return 1;
    }
    if (status == HWTOOL_NO_MEMORY) {
        fprintf(stderr, "no memory\n");
        return 3;
    }
    fprintf(stderr, "%s: %" PRIu64 ": %" PRIu32 "\n", argv[1], refusal.place, refusal.number);
    return 2;
}
