/* Refuses each growth of each call in turn: refused MODEL WITNESS CIRCUIT CIRCUIT_WITNESS INVARIANT PROOF. Linked with
 * --wrap=malloc and --wrap=realloc. A call in which one is refused must answer that memory was wanting and leave what it was
 * given as it was, or answer what it does with ample memory, where it could do without; and so must the first call in which
 * nothing is refused. */
#include "hwtool.h"

#include <stdio.h>
#include <stdlib.h>
#include <string.h>

void *__real_malloc(size_t size);
void *__real_realloc(void *block, size_t size);

static long until, asked;

void *__wrap_malloc(size_t size) { return ++asked == until ? NULL : __real_malloc(size); }

void *__wrap_realloc(void *block, size_t size) { return ++asked == until ? NULL : __real_realloc(block, size); }

struct text {
    uint8_t *bytes;
    size_t length;
};

static struct text texts[6];
enum { MODEL, WITNESS, CIRCUIT, CIRCUIT_WITNESS, INVARIANT, PROOF };

/* What a call answers, and what it leaves of what it was given. */
struct answer {
    uint32_t status;
    struct hwtool_verdict verdict;
    struct hwtool_refusal refusal;
    uint64_t gates, variables;
    size_t needed;
    uint8_t buffer[1 << 16];
    struct hwtool_claim claims[4];
};

/* A witness and a counterexample over the engine form of the circuit of the model, and an invariant over that of the circuit. */
#define FORM_WITNESS "1\nb0\n0000\n0\n0\n.\n"
#define FOUND "0000\n0\n0\n"
#define NEVER_ONE ".i 1\n.o 1\n.p 1\n.ilb lo0\n.ob inv\n1 1\n.e\n"

/* A model with words of more than 64 bits. */
#define WIDE "1 sort bitvec 70\n2 input 1 x\n3 constd 1 -5\n4 add 1 2 3\n5 output 4 y\n6 sort bitvec 1\n7 redor 6 4\n8 bad 7\n"
#define WIDE_WITNESS "sat\nb0\n@0\n0 " "0000000000000000000000000000000000000000000000000000000000000000000101" "\n@1\n.\n"
#define PIECES "sat\nb0\n@0\n1 000001\n@1\n.\n"

#define OF(text) texts[text].bytes, texts[text].length
#define LITERAL(text) (const uint8_t *)text, sizeof text - 1
#define INTO a->buffer, sizeof a->buffer, &a->needed, &a->refusal
#define CLAIMS_INTO a->claims, sizeof a->claims / sizeof *a->claims, &a->needed, &a->refusal

static void check_btor(struct answer *a) { a->status = hwtool_check_btor(OF(MODEL), OF(WITNESS), &a->verdict, &a->refusal); }
static void check_aig(struct answer *a) {
    a->status = hwtool_check_aig(OF(CIRCUIT), OF(CIRCUIT_WITNESS), &a->verdict, &a->refusal);
}
static void check_btor_claims(struct answer *a) {
    a->status = hwtool_check_btor_claims(OF(MODEL), true, 0, OF(WITNESS), &a->verdict, CLAIMS_INTO);
}
static void check_aig_claims(struct answer *a) {
    a->status = hwtool_check_aig_claims(OF(CIRCUIT), false, 0, OF(CIRCUIT_WITNESS), &a->verdict, CLAIMS_INTO);
}
static void lower(struct answer *a) { a->status = hwtool_lower(OF(MODEL), false, INTO); }
static void fit(struct answer *a) { a->status = hwtool_fit(LITERAL(WIDE), INTO); }
static void check_btor_fit(struct answer *a) {
    a->status = hwtool_check_btor_fit(LITERAL(WIDE), LITERAL(WIDE_WITNESS), &a->verdict, &a->refusal);
}
static void check_btor_fit_claims(struct answer *a) {
    a->status = hwtool_check_btor_fit_claims(LITERAL(WIDE), true, 0, LITERAL(WIDE_WITNESS), &a->verdict, CLAIMS_INTO);
}
static void unfit(struct answer *a) { a->status = hwtool_unfit(LITERAL(WIDE), true, LITERAL(PIECES), &a->verdict, INTO); }
static void unfit_back(struct answer *a) { a->status = hwtool_unfit_back(LITERAL(WIDE), LITERAL(WIDE_WITNESS), &a->verdict, INTO); }
static void cost(struct answer *a) { a->status = hwtool_cost(OF(MODEL), &a->gates, &a->variables, &a->refusal); }
static void convert(struct answer *a) { a->status = hwtool_convert(OF(CIRCUIT), true, INTO); }
static void engine_form(struct answer *a) { a->status = hwtool_engine_form(OF(CIRCUIT), true, 0, true, INTO); }
static void lift(struct answer *a) { a->status = hwtool_lift(OF(MODEL), OF(CIRCUIT_WITNESS), &a->verdict, INTO); }
static void restore(struct answer *a) {
    a->status = hwtool_restore(OF(CIRCUIT), true, 0, OF(CIRCUIT_WITNESS), &a->verdict, INTO);
}
static void restore_abc(struct answer *a) {
    a->status = hwtool_restore_abc(OF(CIRCUIT), 0, LITERAL("0\n1\n1\n"), &a->verdict, INTO);
}
static void lift_engine(struct answer *a) {
    a->status = hwtool_lift_engine(OF(MODEL), false, 0, true, LITERAL(FORM_WITNESS), &a->verdict, INTO);
}
static void lift_engine_abc(struct answer *a) {
    a->status = hwtool_lift_engine_abc(OF(MODEL), 0, false, LITERAL(FOUND), &a->verdict, INTO);
}
static void wave(struct answer *a) {
    a->status = hwtool_wave(OF(MODEL), true, LITERAL("title"), OF(WITNESS), &a->verdict, INTO);
}
static void obligation(struct answer *a) { a->status = hwtool_obligation(OF(MODEL), 0, OF(INVARIANT), INTO); }
static void check_proof(struct answer *a) {
    a->status = hwtool_check_proof(OF(MODEL), 0, OF(INVARIANT), false, OF(PROOF), &a->verdict, &a->refusal);
}

static void obligation_aig(struct answer *a) {
    a->status = hwtool_obligation_aig(OF(CIRCUIT), 0, LITERAL(NEVER_ONE), INTO);
}
static void check_proof_aig(struct answer *a) {
    a->status = hwtool_check_proof_aig(OF(CIRCUIT), 0, LITERAL(NEVER_ONE), false, LITERAL("2 0\n"), &a->verdict, &a->refusal);
}

static void obligation_circuit(struct answer *a) {
    a->status = hwtool_obligation_circuit(OF(CIRCUIT), true, false, 0, OF(CIRCUIT), INTO);
}
static void check_proof_circuit(struct answer *a) {
    a->status = hwtool_check_proof_circuit(OF(CIRCUIT), true, false, 0, OF(CIRCUIT), false, LITERAL("2 0\n"), &a->verdict, &a->refusal);
}

static const struct {
    const char *name;
    void (*call)(struct answer *);
} calls[] = {
    {"check_btor", check_btor}, {"check_aig", check_aig}, {"lower", lower}, {"fit", fit},
    {"check_btor_fit", check_btor_fit}, {"unfit", unfit}, {"unfit_back", unfit_back}, {"cost", cost},
    {"convert", convert}, {"engine_form", engine_form}, {"lift", lift}, {"wave", wave},
    {"obligation", obligation}, {"check_proof", check_proof}, {"restore", restore}, {"restore_abc", restore_abc},
    {"lift_engine", lift_engine}, {"lift_engine_abc", lift_engine_abc}, {"obligation_aig", obligation_aig},
    {"check_proof_aig", check_proof_aig}, {"obligation_circuit", obligation_circuit},
    {"check_proof_circuit", check_proof_circuit}, {"check_btor_claims", check_btor_claims},
    {"check_aig_claims", check_aig_claims}, {"check_btor_fit_claims", check_btor_fit_claims},
};

static struct answer ample, before, now;

int main(int argc, char **argv) {
    if (argc != 7) return 4;
    for (int i = 0; i < 6; i++) {
        FILE *file = fopen(argv[i + 1], "rb");
        texts[i].bytes = malloc(1 << 20);
        if (file == NULL || texts[i].bytes == NULL) return 3;
        texts[i].length = fread(texts[i].bytes, 1, 1 << 20, file);
        fclose(file);
    }
    int wrong = 0;
    long tried = 0;
    memset(&before, 0x5a, sizeof before);
    for (size_t k = 0; k < sizeof calls / sizeof *calls; k++) {
        until = 0;
        ample = before;
        calls[k].call(&ample);
        for (long n = 1;; n++) {
            asked = 0;
            until = n;
            now = before;
            calls[k].call(&now);
            tried++;
            int is_refused = asked >= n;
            before.status = HWTOOL_NO_MEMORY;
            if (memcmp(&now, &ample, sizeof now) != 0 && !(is_refused && memcmp(&now, &before, sizeof now) == 0)) {
                wrong++;
                printf("%s: growth %ld of %ld refused: status %u\n", calls[k].name, n, asked, now.status);
            }
            if (!is_refused) break;
        }
    }
    until = 0;
    printf("refused growths: %ld tried, %d wrong\n", tried, wrong);
    return wrong != 0;
}
