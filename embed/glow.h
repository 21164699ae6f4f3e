/* glow: open lambda terms evaluated by the Easy GLAMOUR machine, or by the Fast GLAMOUR machine, which copies functions on
   demand. Link with libglow.a. */
#ifndef GLOW_H
#define GLOW_H

#include <stddef.h>
#include <stdint.h>

#ifdef __cplusplus
extern "C" {
#endif

/* The machines. Where no store refuses, both give the same outcome, the same count of beta steps and the same term; the
   other counts and what is taken of the stores are each machine's own.

   The first machine copies a function wherever a name that stands for one is met, and each of its beta steps takes the same
   short time. The machine on demand copies it only where it is applied, so that functions which are only passed along take
   no further nodes and no further names; but a beta step whose argument is a name alone puts that name into the whole
   body, which takes time with the body's length. Choose it where functions are mostly passed along, or nodes are few. */
enum glow_machine {
    GLOW_FIRST = 0,             /* Easy GLAMOUR */
    GLOW_ON_DEMAND = 1          /* Fast GLAMOUR */
};

/* What glow_evaluate and glow_evaluate_with return. */
enum glow_status {
    GLOW_NORMAL = 0,            /* the term is in the output arrays */
    GLOW_SPENT = 1,             /* the beta steps made equal the budget, and another one is next */
    GLOW_REFUSED = 2,           /* refusal 8 to 12, its number in report[GLOW_REFUSAL] */
    GLOW_FILE_REFUSED = 3,      /* refusal 1 to 7 or 17 to 19; only report[GLOW_REFUSAL] is written, no array is changed */
    GLOW_REPORT_TOO_SHORT = 4,  /* report_len is below GLOW_REPORT_LEN; nothing is touched */
    GLOW_NO_SUCH_MACHINE = 5    /* machine is no number of glow_machine, which is asked first of all; nothing is touched */
};

/* What glow_import and glow_export return. */
enum glow_exchange_status {
    GLOW_EXCHANGE_WRITTEN = 0,          /* the result is at the front of out; the rest of out is as before */
    GLOW_EXCHANGE_REFUSED = 3,          /* its number in report[GLOW_REFUSAL]; out is as before */
    GLOW_EXCHANGE_REPORT_TOO_SHORT = 4  /* report_len is below GLOW_EXCHANGE_REPORT_LEN; nothing is touched */
};

/* Refusal numbers. glow_evaluate gives 1 to 12, glow_evaluate_with also 17 to 19, glow_import 2, 12 and 14 to 16, glow_export
   1 to 7 and 12. Of glow_evaluate_with 2 and 4 to 7 may also be a definition's. */
enum glow_refusal {
    GLOW_FILE_TOO_SHORT = 1,    /* fewer than 4 bytes */
    GLOW_FILE_LIMITS = 2,       /* f or n outside its limits; of glow_import, f */
    GLOW_FILE_LENGTH = 3,       /* length is not 4 + 3 n */
    GLOW_FILE_TAG = 4,          /* a tag above 2 */
    GLOW_FILE_SHAPE = 5,        /* not one whole term, or a wrong left size */
    GLOW_FILE_BINDER = 6,       /* an abstraction binds another name than its place gives */
    GLOW_FILE_UNBOUND = 7,      /* a variable neither free nor bound around it */
    GLOW_NO_CELLS = 8,
    GLOW_NO_NODES = 9,
    GLOW_NO_NAMES = 10,
    GLOW_NO_RENUMBER = 11,      /* renumber store shorter than the names in use */
    GLOW_NO_OUTPUT = 12,        /* the term written out exceeds the output; of glow_import and glow_export, the result
                                   is longer than out */
                                /* 13 is not used */
    GLOW_BITS_TOO_SHORT = 14,   /* glow_import alone: the bits end inside a term, or there are none */
    GLOW_BITS_PADDING = 15,     /* glow_import alone: the padding is not zero, or there is a spare byte */
    GLOW_BITS_LIMITS = 16,      /* glow_import alone: a node beyond GLOW_MOST_FILE_NODES, or a free name not below f */
    GLOW_PRELUDE_BYTES = 17,    /* glow_evaluate_with alone: more definitions than free names, or bytes left over or missing */
    GLOW_PRELUDE_NOT_ABSTRACTION = 18,  /* glow_evaluate_with alone: a definition is not an abstraction */
    GLOW_PRELUDE_PLACE = 19     /* glow_evaluate_with alone: the f of a definition is not its place */
};

/* Elements of the report. GLOW_SUBST_ALLOWANCE is (1 + b) V on the first machine and 1 + b on demand, and
   GLOW_SHIFT_ALLOWANCE is (1 + b) 2 A on both: b the beta steps made, V the variables of the file and A its applications,
   with those of the definitions. No run makes more substs, nor more enters and leaves together, than that. */
enum glow_report {
    GLOW_REFUSAL = 0, GLOW_WRITTEN = 1, GLOW_BETA = 2, GLOW_SUBST = 3, GLOW_ENTER = 4,
    GLOW_LEAVE_FUN = 5, GLOW_LEAVE_INERT = 6, GLOW_NODES = 7, GLOW_CELLS = 8, GLOW_NAMES = 9,
    GLOW_SUBST_ALLOWANCE = 10, GLOW_SHIFT_ALLOWANCE = 11, GLOW_REPORT_LEN = 12
};

/* The report of glow_import and glow_export has the first two alone; GLOW_WRITTEN is the bytes written. */
#define GLOW_EXCHANGE_REPORT_LEN 2

/* Tags of nodes. */
enum glow_tag { GLOW_VARIABLE = 0, GLOW_ABSTRACTION = 1, GLOW_APPLICATION = 2 };

#define GLOW_MOST_FILE_NODES 16384  /* n of a term file, and nodes written out */
#define GLOW_MOST_COUNTED 32768     /* counted of the node, cell and name stores */

/* Stack. A call of glow_evaluate takes at most GLOW_STACK_NEEDED(nodes, cells) bytes, where nodes is the shorter
   length of tags and args, and cells the shortest of codes, owns and nexts: 856,064 with the program's stores,
   and GLOW_MOST_STACK_NEEDED, 1,642,496, with the largest. For counting and writing a result call themselves, no
   deeper than there are cells, nor than one for each four nodes. A definition has no cell, so a call of
   glow_evaluate_with takes at most GLOW_STACK_NEEDED(nodes, nodes). Before a result is counted any call takes up to
   GLOW_STACK_FOR_A_CALL, which is free again then. On a thread with less a term that is nested deeply enough
   overflows the stack, which ends the process. */
#define GLOW_STACK_FOR_A_CALL 106496
#define GLOW_STACK_FOR_A_RESULT 69632
#define GLOW_STACK_FOR_A_LEVEL 192
#define GLOW_LESS(a, b) ((size_t)(a) < (size_t)(b) ? (size_t)(a) : (size_t)(b))
#define GLOW_MORE(a, b) ((size_t)(a) < (size_t)(b) ? (size_t)(b) : (size_t)(a))
#define GLOW_STACK_NEEDED(nodes, cells) \
    GLOW_MORE(GLOW_STACK_FOR_A_CALL, GLOW_STACK_FOR_A_RESULT + \
        GLOW_STACK_FOR_A_LEVEL * GLOW_LESS(cells, GLOW_LESS(nodes, GLOW_MOST_COUNTED) / 4))
#define GLOW_MOST_STACK_NEEDED GLOW_STACK_NEEDED(GLOW_MOST_COUNTED, GLOW_MOST_COUNTED)

/* The budget counts beta steps. After the last one that it allows the run goes on until no step fits, a store is full or
   another beta is next; so GLOW_SPENT means that the term has a further beta step. Every call ends, whatever the budget.
   With the same machine and bytes, a budget at least as large and arrays each at least as long, GLOW_NORMAL comes again, with
   the same report and the same term, and GLOW_FILE_REFUSED with the same number; GLOW_SPENT changes only where the budget is
   larger, and GLOW_REFUSED only where the store of its number is longer.
   No two arrays may overlap. Where a length is 0 the pointer may be anything, null too. */
uint32_t glow_evaluate(
    uint32_t machine,                                                           /* of glow_machine */
    const uint8_t *file, size_t file_len, uint32_t budget,
    uint8_t *tags, size_t tags_len, uint16_t *args, size_t args_len,            /* node store */
    uint16_t *codes, size_t codes_len, uint16_t *owns, size_t owns_len,
    uint16_t *nexts, size_t nexts_len,                                          /* cell store */
    uint16_t *places, size_t places_len,                                        /* name store */
    uint16_t *renumber, size_t renumber_len,
    uint8_t *out_tags, size_t out_tags_len, uint16_t *out_args, size_t out_args_len,
    uint64_t *report, size_t report_len);

/* As glow_evaluate, with named definitions. A prelude is a 16-bit count d, little endian, and then d term files, each of 4 + 3 n
   bytes, n its own. Definition k is an abstraction that stands for the free name k, and its f is k, so that it may use the
   names of those before it. d is at most the f of the file; names from d on stay free. Where no store refuses, the status, the
   beta steps and the term are those of the term with the definitions put in. Loading takes the nodes of the file and of all
   definitions, and f names and one for each abstraction in them; a definition takes no cell.

   The refusals in the order of their tests: 1 to 7 of the file; 17; 2 and 4 to 7 of each definition in turn; 18 over all
   definitions, and 19 over all. Then come those of a run. With the two bytes 00 00 for a prelude a call is one of
   glow_evaluate. embed/prelude.c evaluates a term with two definitions. */
uint32_t glow_evaluate_with(
    uint32_t machine,                                                           /* of glow_machine */
    const uint8_t *prelude, size_t prelude_len,
    const uint8_t *file, size_t file_len, uint32_t budget,
    uint8_t *tags, size_t tags_len, uint16_t *args, size_t args_len,            /* node store */
    uint16_t *codes, size_t codes_len, uint16_t *owns, size_t owns_len,
    uint16_t *nexts, size_t nexts_len,                                          /* cell store */
    uint16_t *places, size_t places_len,                                        /* name store */
    uint16_t *renumber, size_t renumber_len,
    uint8_t *out_tags, size_t out_tags_len, uint16_t *out_args, size_t out_args_len,
    uint64_t *report, size_t report_len);

/* Terms as bits of binary lambda calculus: 00 and a body is an abstraction, 01 and two terms an application, and
   k + 1 ones followed by a zero the variable that is bound k abstractions out. With m abstractions around it and
   k at least m it is the free name k - m. Bits fill bytes from the highest, and the last byte is padded with zeros:
   \x. x is 0010, the byte 0x20. embed/exchange.c imports it and exports it back.

   The two functions do not call themselves, and take at most GLOW_STACK_FOR_AN_EXCHANGE bytes of stack. As above no
   two arrays may overlap, and where a length is 0 the pointer may be anything. */
#define GLOW_STACK_FOR_AN_EXCHANGE 172032
#define GLOW_MOST_IMPORTED 49156        /* bytes that an import writes at most: 4 + 3 GLOW_MOST_FILE_NODES */
#define GLOW_MOST_EXPORTED 16781312     /* bytes that an export writes at most */

/* From bits to a term file with f free names, of 4 + 3 n bytes. The refusals in the order of their tests: 2 where f is
   above 16,384; 14 and 16 in the order of the bits, 16 at the last bit of the node in question; 15; and 12. */
uint32_t glow_import(
    const uint8_t *bits, size_t bits_len, uint32_t f,
    uint8_t *out, size_t out_len, uint64_t *report, size_t report_len);

/* From a term file to bits. The refusals in the order of their tests: 1 to 7, and 12. */
uint32_t glow_export(
    const uint8_t *file, size_t file_len,
    uint8_t *out, size_t out_len, uint64_t *report, size_t report_len);

#ifdef __cplusplus
}
#endif

#endif
