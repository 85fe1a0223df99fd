/* The library of hwtool for C programs: judgements of witnesses, lowering, lifting, restoring, dumps and certificates, over
 * whole texts in memory. What each call answers is proved (docs/PROVED.md, "capi"), but that 4 comes only where memory was
 * wanting: that is tested.
 *
 * What the caller owes, which nothing checks:
 *   - no pointer is null, also that of an empty text or buffer; a text or buffer of n bytes is n bytes that can be read or
 *     written, and n is below 2^63;
 *   - a `bool` is 0 or 1;
 *   - what a call writes (buffer, claims, needed, verdict, refusal, gates, variables) overlaps neither what it reads nor each
 *     other;
 *   - a stack of 256 KB at least;
 *   - `malloc`, `realloc` and `free` are those of one allocator, and no call is made from a signal handler or from the forked
 *     child of a process with threads. Calls of several threads are free of each other.
 *
 * Every call answers a status. A call that answers a text puts it at the front of the caller's buffer and tells its length in
 * `needed`; the bytes of the buffer behind it stay as they were. Where the buffer is too small all of it stays, and `needed` is
 * told, so a call with a buffer of one byte asks for the length, as `snprintf` does. With any other status both stay. A list of
 * claims goes into an array of the caller's in the same way, and `needed` and lengths count claims then.
 */
#ifndef HWTOOL_H
#define HWTOOL_H

#include <stdbool.h>
#include <stddef.h>
#include <stdint.h>

#ifdef __cplusplus
extern "C" {
#endif

/* The version of the library that this header goes with. */
#define HWTOOL_VERSION "0.16.0"

/* The statuses. */
enum {
    HWTOOL_DONE = 0,           /* the answer is there */
    HWTOOL_TOO_SMALL = 1,      /* the buffer is too small and stays; `needed` is the length of the text */
    HWTOOL_TEXT_REFUSED = 2,   /* the first text is no model or no circuit; `refusal` says why and where */
    HWTOOL_MODEL_REFUSED = 3,  /* what it says is not taken by this call; `refusal` says why and which item */
    HWTOOL_NO_MEMORY = 4,      /* out of memory */
    HWTOOL_SECOND_REFUSED = 5  /* the second text, an invariant or a witness circuit, is not taken; `refusal` says why and where */
};

/* The kinds of verdicts. */
enum {
    HWTOOL_ACCEPTED = 0,      /* of a witness: `first` frames; of a proof: the property holds, shown with line `first` */
    HWTOOL_NOT_REACHED = 1,   /* the claimed bad property at position `first` rises in no frame */
    HWTOOL_VIOLATED = 2,      /* in frame `first` the constraint at position `second` does not hold */
    HWTOOL_INIT_DIFFERS = 3,  /* the initial value of the state or latch at position `first` is another */
    HWTOOL_MALFORMED = 4,     /* line `first`, from 1, is faulty; `why` is the number of why */
    HWTOOL_NO_CLAIM = 5,      /* the witness claims nothing */
    HWTOOL_NOT_IMPLIED = 6,   /* the step of a proof that ends in line `first` is not implied */
    HWTOOL_NOT_DERIVED = 7,   /* a proof ends before anything is shown */
    HWTOOL_NOT_CLAIMED = 8    /* the witness is accepted, and does not claim the chosen bad property, at position `first` */
};

/* What is said of a witness or of a proof. Fields that the kind does not name are 0. */
struct hwtool_verdict {
    uint32_t kind;
    uint32_t why;
    uint64_t first;
    uint64_t second;
};

/* A claim of an accepted witness: the position of the bad property, and the first frame in which it is reached, both from 0. */
struct hwtool_claim {
    uint64_t bad;
    uint64_t frame;
};

/* Why a text or its model is refused: the number of the refusal, and its place: the line of a model's or an invariant's text,
 * from 1, the byte of a circuit's, from 0, the id of an item of the model, or 0 where it is about the whole. */
struct hwtool_refusal {
    uint32_t number;
    uint64_t place;
};

/* Judges a witness of a BTOR2 model. Answers DONE with `verdict`, TEXT_REFUSED, MODEL_REFUSED (a state has an init and no
 * next), NO_MEMORY. */
uint32_t hwtool_check_btor(const uint8_t *model, size_t model_length, const uint8_t *witness, size_t witness_length,
                           struct hwtool_verdict *verdict, struct hwtool_refusal *refusal);

/* Judges a witness of an AIGER circuit of either form. Answers DONE with `verdict`, TEXT_REFUSED, MODEL_REFUSED (the circuit has
 * outputs and no bad property), NO_MEMORY. */
uint32_t hwtool_check_aig(const uint8_t *circuit, size_t circuit_length, const uint8_t *witness, size_t witness_length,
                          struct hwtool_verdict *verdict, struct hwtool_refusal *refusal);

/* Judges a witness of a BTOR2 model, and tells the claims of one that is accepted, in file order of the bad properties. Where
 * `chosen`, only a witness that claims the bad property at position `bad` is accepted. Answers DONE and TOO_SMALL with `verdict`
 * and `needed`, which is 0 without an acceptance, TEXT_REFUSED, MODEL_REFUSED (there is no such bad property, or a state has an
 * init and no next), NO_MEMORY. What hwtool_lift and hwtool_lift_engine write, and what hwtool_wave dumps, are such witnesses. */
uint32_t hwtool_check_btor_claims(const uint8_t *model, size_t model_length, bool chosen, size_t bad, const uint8_t *witness,
                                  size_t witness_length, struct hwtool_verdict *verdict, struct hwtool_claim *claims,
                                  size_t claims_length, size_t *needed, struct hwtool_refusal *refusal);

/* The same of a BTOR2 model that hwtool_fit takes. MODEL_REFUSED where there is no such bad property, or hwtool_fit does not take it.
 * What hwtool_unfit writes is such a witness. */
uint32_t hwtool_check_btor_fit_claims(const uint8_t *model, size_t model_length, bool chosen, size_t bad, const uint8_t *witness,
                                      size_t witness_length, struct hwtool_verdict *verdict, struct hwtool_claim *claims,
                                      size_t claims_length, size_t *needed, struct hwtool_refusal *refusal);

/* The same of an AIGER circuit of either form. MODEL_REFUSED where there is no such bad property, or the circuit has outputs and no
 * bad property. What hwtool_restore writes is such a witness. */
uint32_t hwtool_check_aig_claims(const uint8_t *circuit, size_t circuit_length, bool chosen, size_t bad, const uint8_t *witness,
                                 size_t witness_length, struct hwtool_verdict *verdict, struct hwtool_claim *claims,
                                 size_t claims_length, size_t *needed, struct hwtool_refusal *refusal);

/* Lowers a BTOR2 model to an AIGER circuit, binary or ascii. Answers DONE and TOO_SMALL with `needed`, TEXT_REFUSED,
 * MODEL_REFUSED, NO_MEMORY. */
uint32_t hwtool_lower(const uint8_t *model, size_t model_length, bool binary, uint8_t *buffer, size_t buffer_length,
                      size_t *needed, struct hwtool_refusal *refusal);

/* Writes a BTOR2 model of the whole language, with arrays, words of up to 1,048,576 bits, operands with a minus and inits by any
 * line, as one that the other calls take, whose bad properties can rise in as many frames; one that hwtool_lower takes as it is, in
 * one spelling. Answers DONE and TOO_SMALL with `needed`, TEXT_REFUSED, MODEL_REFUSED, NO_MEMORY. */
uint32_t hwtool_fit(const uint8_t *model, size_t model_length, uint8_t *buffer, size_t buffer_length, size_t *needed,
                    struct hwtool_refusal *refusal);

/* Judges a witness of a BTOR2 model that hwtool_fit takes, as hwtool_check_btor does of one that hwtool_lower takes. Answers DONE
 * with `verdict`, TEXT_REFUSED, MODEL_REFUSED (hwtool_fit does not take it), NO_MEMORY. */
uint32_t hwtool_check_btor_fit(const uint8_t *model, size_t model_length, const uint8_t *witness, size_t witness_length,
                               struct hwtool_verdict *verdict, struct hwtool_refusal *refusal);

/* Judges a witness of the model that hwtool_fit writes, and writes the one of the model itself that says the same, with `names` or
 * without. The verdict is that of both; where a state differs that hwtool_fit put behind the model's, its index is how many states
 * the model has. Answers DONE and TOO_SMALL with `verdict` and `needed`, else as hwtool_check_btor_fit. */
uint32_t hwtool_unfit(const uint8_t *model, size_t model_length, bool names, const uint8_t *witness, size_t witness_length,
                      struct hwtool_verdict *verdict, uint8_t *buffer, size_t buffer_length, size_t *needed,
                      struct hwtool_refusal *refusal);

/* The other way round: judges a witness of the model, and writes the one of the model that hwtool_fit writes. Answers DONE and
 * TOO_SMALL as hwtool_unfit, else as hwtool_check_btor_fit. */
uint32_t hwtool_unfit_back(const uint8_t *model, size_t model_length, const uint8_t *witness, size_t witness_length,
                           struct hwtool_verdict *verdict, uint8_t *buffer, size_t buffer_length, size_t *needed,
                           struct hwtool_refusal *refusal);

/* How many AND gates and how many variables a lowered model's circuit has at most. Answers DONE, TEXT_REFUSED, NO_MEMORY. */
uint32_t hwtool_cost(const uint8_t *model, size_t model_length, uint64_t *gates, uint64_t *variables,
                     struct hwtool_refusal *refusal);

/* Writes an AIGER circuit of either form in one, its variables numbered as in the binary form. Answers DONE and TOO_SMALL with
 * `needed`, TEXT_REFUSED, NO_MEMORY. */
uint32_t hwtool_convert(const uint8_t *circuit, size_t circuit_length, bool binary, uint8_t *buffer, size_t buffer_length,
                        size_t *needed, struct hwtool_refusal *refusal);

/* Writes the engine form of an AIGER circuit, which every engine reads alike: with all its bad properties, or, where `chosen`,
 * with the one at position `bad` alone. Answers DONE and TOO_SMALL with `needed`, TEXT_REFUSED, MODEL_REFUSED, NO_MEMORY. */
uint32_t hwtool_engine_form(const uint8_t *circuit, size_t circuit_length, bool chosen, size_t bad, bool binary,
                            uint8_t *buffer, size_t buffer_length, size_t *needed, struct hwtool_refusal *refusal);

/* Judges a witness of the circuit that a BTOR2 model lowers to, and lifts it to the model's. Answers DONE and TOO_SMALL with
 * `verdict` and `needed`, TEXT_REFUSED, MODEL_REFUSED (the model is not lowered, or has outputs and no bad property), NO_MEMORY. */
uint32_t hwtool_lift(const uint8_t *model, size_t model_length, const uint8_t *witness, size_t witness_length,
                     struct hwtool_verdict *verdict, uint8_t *buffer, size_t buffer_length, size_t *needed,
                     struct hwtool_refusal *refusal);

/* Judges a witness of the engine form of an AIGER circuit, with all its bad properties, or, where `chosen`, with the one at
 * position `bad` alone, and restores it to the circuit's: with the property that it claims, up to and with the first frame in
 * which this rises. The verdict is what is judged over the circuit of what it is restored to, where it claims one and no line
 * is faulty. Answers DONE and TOO_SMALL with `verdict` and `needed`, TEXT_REFUSED, MODEL_REFUSED (there is no such form),
 * NO_MEMORY. */
uint32_t hwtool_restore(const uint8_t *circuit, size_t circuit_length, bool chosen, size_t bad, const uint8_t *witness,
                        size_t witness_length, struct hwtool_verdict *verdict, uint8_t *buffer, size_t buffer_length,
                        size_t *needed, struct hwtool_refusal *refusal);

/* The same of a counterexample over the engine form of an AIGER circuit with the bad property at position `bad`, as ABC writes
 * it: a line of initial bits, which are 0, and a line of input bits for each frame. Answers as hwtool_restore. A verdict of
 * kind MALFORMED whose `why` is from 150 to 153 is about a line of the counterexample; what the lines before it give is
 * restored then, without a last line. */
uint32_t hwtool_restore_abc(const uint8_t *circuit, size_t circuit_length, size_t bad, const uint8_t *found,
                            size_t found_length, struct hwtool_verdict *verdict, uint8_t *buffer, size_t buffer_length,
                            size_t *needed, struct hwtool_refusal *refusal);

/* Judges a witness of the engine form of the circuit that a BTOR2 model lowers to, as hwtool_restore does, and lifts it to the
 * model's, with `names` or without. Answers DONE and TOO_SMALL with `verdict` and `needed`, TEXT_REFUSED, MODEL_REFUSED (the
 * model is not lowered, or there is no such form), NO_MEMORY. */
uint32_t hwtool_lift_engine(const uint8_t *model, size_t model_length, bool chosen, size_t bad, bool names,
                            const uint8_t *witness, size_t witness_length, struct hwtool_verdict *verdict, uint8_t *buffer,
                            size_t buffer_length, size_t *needed, struct hwtool_refusal *refusal);

/* The same of a counterexample as hwtool_restore_abc takes it. Answers as hwtool_lift_engine. */
uint32_t hwtool_lift_engine_abc(const uint8_t *model, size_t model_length, size_t bad, bool names, const uint8_t *found,
                                size_t found_length, struct hwtool_verdict *verdict, uint8_t *buffer, size_t buffer_length,
                                size_t *needed, struct hwtool_refusal *refusal);

/* hwtool_lift, with `names` or without, of a BTOR2 model that hwtool_fit takes: the witness is one of the circuit of what that writes, and
 * what is written is the model's, as hwtool_unfit has it. The verdict is what is judged of this over the model, where the witness claims
 * a bad property and no line is faulty. Answers DONE and TOO_SMALL with `verdict` and `needed`, TEXT_REFUSED, MODEL_REFUSED (hwtool_fit
 * does not take the model, or what it writes is not lowered, or has outputs and no bad property), NO_MEMORY. */
uint32_t hwtool_lift_fit(const uint8_t *model, size_t model_length, bool names, const uint8_t *witness, size_t witness_length,
                         struct hwtool_verdict *verdict, uint8_t *buffer, size_t buffer_length, size_t *needed,
                         struct hwtool_refusal *refusal);

/* The same of a witness as hwtool_lift_engine takes it. MODEL_REFUSED also where there is no such form. */
uint32_t hwtool_lift_engine_fit(const uint8_t *model, size_t model_length, bool chosen, size_t bad, bool names,
                                const uint8_t *witness, size_t witness_length, struct hwtool_verdict *verdict, uint8_t *buffer,
                                size_t buffer_length, size_t *needed, struct hwtool_refusal *refusal);

/* The same of a counterexample as hwtool_restore_abc takes it. */
uint32_t hwtool_lift_engine_abc_fit(const uint8_t *model, size_t model_length, size_t bad, bool names, const uint8_t *found,
                                    size_t found_length, struct hwtool_verdict *verdict, uint8_t *buffer, size_t buffer_length,
                                    size_t *needed, struct hwtool_refusal *refusal);

/* Judges a witness of a BTOR2 model, and writes its frames as a value change dump with a title in its comment: of nodes that
 * are no inputs, states, properties or outputs those that have a symbol, or `all`. Answers as hwtool_lift. */
uint32_t hwtool_wave(const uint8_t *model, size_t model_length, bool all, const uint8_t *title, size_t title_length,
                     const uint8_t *witness, size_t witness_length, struct hwtool_verdict *verdict, uint8_t *buffer,
                     size_t buffer_length, size_t *needed, struct hwtool_refusal *refusal);

/* Writes in DIMACS what an invariant, as ABC writes it over the engine form, owes for the bad property of a BTOR2 model at
 * position `bad`. Answers DONE and TOO_SMALL with `needed`, TEXT_REFUSED, MODEL_REFUSED, SECOND_REFUSED, NO_MEMORY. */
uint32_t hwtool_obligation(const uint8_t *model, size_t model_length, size_t bad, const uint8_t *invariant,
                           size_t invariant_length, uint8_t *buffer, size_t buffer_length, size_t *needed,
                           struct hwtool_refusal *refusal);

/* Judges a proof of what that invariant owes, in DRAT, or with `lrat` in LRAT. With a verdict of kind 0 the bad property rises in
 * no frame up to which the constraints hold, from any initial state under every input sequence. Answers DONE with `verdict`,
 * TEXT_REFUSED, MODEL_REFUSED, SECOND_REFUSED, NO_MEMORY. */
uint32_t hwtool_check_proof(const uint8_t *model, size_t model_length, size_t bad, const uint8_t *invariant,
                            size_t invariant_length, bool lrat, const uint8_t *proof, size_t proof_length,
                            struct hwtool_verdict *verdict, struct hwtool_refusal *refusal);

/* Writes in DIMACS what an invariant, as ABC writes it over the engine form, owes for the bad property of an AIGER circuit at
 * position `bad`. Answers DONE and TOO_SMALL with `needed`, TEXT_REFUSED, MODEL_REFUSED, SECOND_REFUSED, NO_MEMORY. */
uint32_t hwtool_obligation_aig(const uint8_t *circuit, size_t circuit_length, size_t bad, const uint8_t *invariant,
                               size_t invariant_length, uint8_t *buffer, size_t buffer_length, size_t *needed,
                               struct hwtool_refusal *refusal);

/* Judges a proof of what that invariant owes, in DRAT, or with `lrat` in LRAT. With a verdict of kind 0 the bad property rises in
 * no frame up to which the constraints hold, from any initial bits that agree with the resets, under every input sequence. Answers
 * DONE with `verdict`, TEXT_REFUSED, MODEL_REFUSED, SECOND_REFUSED, NO_MEMORY. */
uint32_t hwtool_check_proof_aig(const uint8_t *circuit, size_t circuit_length, size_t bad, const uint8_t *invariant,
                                size_t invariant_length, bool lrat, const uint8_t *proof, size_t proof_length,
                                struct hwtool_verdict *verdict, struct hwtool_refusal *refusal);

/* Writes in DIMACS what a witness circuit, in AIGER of either form, owes for the bad property at position `bad` of a BTOR2 model,
 * or with `aiger` of an AIGER circuit: one of its circuit, or with `over_form` of its engine form with this property alone.
 * Answers DONE and TOO_SMALL with `needed`, TEXT_REFUSED, MODEL_REFUSED (also where there is no such bad property), SECOND_REFUSED,
 * NO_MEMORY. */
uint32_t hwtool_obligation_circuit(const uint8_t *first, size_t first_length, bool aiger, bool over_form, size_t bad,
                                   const uint8_t *witness, size_t witness_length, uint8_t *buffer, size_t buffer_length,
                                   size_t *needed, struct hwtool_refusal *refusal);

/* Judges a proof of what that witness circuit owes, in DRAT, or with `lrat` in LRAT. With a verdict of kind 0 the bad property rises
 * in no frame up to which the constraints hold, from any initial state under every input sequence. Answers DONE with `verdict`,
 * TEXT_REFUSED, MODEL_REFUSED, SECOND_REFUSED, NO_MEMORY. */
uint32_t hwtool_check_proof_circuit(const uint8_t *first, size_t first_length, bool aiger, bool over_form, size_t bad,
                                    const uint8_t *witness, size_t witness_length, bool lrat, const uint8_t *proof,
                                    size_t proof_length,
                                    struct hwtool_verdict *verdict, struct hwtool_refusal *refusal);

/* The version, which is that of the program, as HWTOOL_VERSION has it for this header; not ended by a zero byte. Answers DONE and
 * TOO_SMALL with `needed`. */
uint32_t hwtool_version(uint8_t *buffer, size_t buffer_length, size_t *needed);

/* The name of a refusal, by its number, as the program prints it; not ended by a zero byte. Answers DONE and TOO_SMALL with
 * `needed`; TEXT_REFUSED where no refusal has this number. */
uint32_t hwtool_name(uint32_t number, uint8_t *buffer, size_t buffer_length, size_t *needed);

#ifdef __cplusplus
}
#endif

#endif
