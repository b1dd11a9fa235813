/* Member selection over Go type tables: the proved library's calls, for C and whatever calls C. yifgrun_ask is for one
 * question on a table, yifgrun_ask_all for several, which loads the table once, and yifgrun_tidy writes a table out
 * again without repeated types.
 *
 * Link with libyifgrun.a, which `host/archive.sh` makes as target/staticlib/libyifgrun.a, for x86-64 Linux. The
 * library keeps nothing between calls and allocates nothing; calls on different buffers may run at the same time. A
 * call takes less than 600 KB of stack. docs/ENTRY.md has a program, docs/MANUAL.md the table text, the questions and
 * the answers. */
#ifndef YIFGRUN_H
#define YIFGRUN_H

#include <stddef.h>
#include <stdint.h>

#ifdef __cplusplus
extern "C" {
#endif

/* The words of work area that a call needs: fewer are refusal 1. The number stays the same as long as the archive does. */
size_t yifgrun_work_words(void);

/* The version of the archive that is linked, as one number, and its three parts. Of two versions the newer has the
 * larger number. */
uint32_t yifgrun_version(void);
#define YIFGRUN_MAJOR(version) ((int)((version) >> 16))
#define YIFGRUN_MINOR(version) ((int)((version) >> 8 & 255))
#define YIFGRUN_PATCH(version) ((int)((version) & 255))

/* Asks one question on a table.
 *
 *   table     the table text; it is only read
 *   question  one question line without its newline; it is only read
 *   answer    where the answer goes: lines that end in a newline, their fields parted by one tab
 *   work      a work area of at least yifgrun_work_words() words, at a multiple of four bytes; it may hold anything
 *
 * Each length counts bytes, that of the work area words. The buffers do not overlap. No pointer is null, also
 * where its length is 0.
 *
 * What comes back is the answer's length, 0 or more, or a number below 0 for a refusal: minus
 * (refusal * 65536 + line), the line being 0 where none is named.
 *
 *                           answer buffer                                 work area
 *   an answer               the answer in front, the rest unchanged       all words 0
 *   refusals 2 to 14        unchanged                                     all words 0
 *   refusal 1               unchanged                                     unchanged
 */
int64_t yifgrun_ask(const uint8_t *table, size_t table_len,
                    const uint8_t *question, size_t question_len,
                    uint8_t *answer, size_t answer_len,
                    uint32_t *work, size_t work_len);

/* Asks questions on a table, which is loaded once.
 *
 *   table      the table text; it is only read
 *   questions  question lines; it is only read. The last may lack its newline. An empty line is a question of wrong
 *              form; no bytes at all are no questions
 *   answers    where the answers go, one after the other, in the order of the questions
 *   work       a work area as for yifgrun_ask
 *
 * Lengths, buffers and pointers are as for yifgrun_ask.
 *
 * An answer is what yifgrun_ask gives, of any length. A question that is refused, by 11 or 12, has the line `refused`,
 * number, 0 for its answer, its fields parted by one tab, and the next is answered all the same. No other line begins
 * with `refused`. A line that begins with `sel` or `and` goes on with the answer before it; every other begins the
 * answer to the next question.
 *
 * What comes back is the length of all answers, 0 where there are no questions, or a number below 0 for a refusal of
 * the work area, of the table, or of a buffer that is shorter than all answers together (13, line 0).
 *
 *                           answer buffer                                 work area
 *   answers                 the answers in front, the rest unchanged      all words 0
 *   refusals 2 to 10, 13    unchanged                                     all words 0
 *   and 14
 *   refusal 1               unchanged                                     unchanged
 */
int64_t yifgrun_ask_all(const uint8_t *table, size_t table_len,
                        const uint8_t *questions, size_t questions_len,
                        uint8_t *answers, size_t answers_len,
                        uint32_t *work, size_t work_len);

/* Writes a table out again with only the least-numbered type of each set of identical types (identical as the question I
 * judges). The types that remain keep their order and are numbered anew, each reference goes to the type that remains of
 * the same set, members are numbered anew, and all packages stay. docs/MANUAL.md says what carries over.
 *
 *   table   the table text; it is only read
 *   output  where the tidied table goes; as many bytes as the table has are always enough
 *   work    a work area as for yifgrun_ask
 *
 * Lengths, buffers and pointers are as for yifgrun_ask.
 *
 * What comes back is the length of the tidied table, or a number below 0 for a refusal of the work area, of the table, or
 * of a buffer that is too short (13, line 0).
 *
 *                           output                                        work area
 *   a tidied table          the table in front, the rest unchanged        all words 0
 *   refusals 2 to 10, 13    unchanged                                     all words 0
 *   and 14
 *   refusal 1               unchanged                                     unchanged
 */
int64_t yifgrun_tidy(const uint8_t *table, size_t table_len,
                     uint8_t *output, size_t output_len,
                     uint32_t *work, size_t work_len);

/* The refusal (1 to 14) and the line of a number below 0. */
#define YIFGRUN_REFUSAL(number) ((int)(-(number) / 65536))
#define YIFGRUN_LINE(number) ((int)(-(number) % 65536))

enum yifgrun_refusal {
    YIFGRUN_WORK_TOO_SHORT = 1,      /* the work area has fewer words than a call needs */
    YIFGRUN_TABLE_TOO_LONG = 2,      /* the table has more than 65,536 bytes */
    YIFGRUN_HEADER = 3,              /* the first line is not exactly `typetable`, tab, `1`, newline */
    YIFGRUN_FORM = 4,                /* wrong form: letter, field count, value outside its range, or no newline */
    YIFGRUN_PLACE = 5,               /* out of place: P after T, F not under a struct, M not under a named type or
                                        interface */
    YIFGRUN_TOO_MANY = 6,            /* a 65th package, 513th type, 2,049th member, or 256th member of one type */
    YIFGRUN_LACKING = 7,             /* a package or type number that the table lacks */
    YIFGRUN_KIND = 8,                /* a type that may not be referred to there: it comes later, or is of a kind that
                                        is not allowed; or a pointer receiver in an interface */
    YIFGRUN_CLASH = 9,               /* a member's identity clashes, or an interface's methods do not ascend */
    YIFGRUN_CONTAINS_ITSELF = 10,    /* a type contains itself by value */
    YIFGRUN_QUESTION = 11,           /* the question has a wrong form, more than 256 bytes, or a number that the
                                        table lacks */
    YIFGRUN_NOT_AN_INTERFACE = 12,   /* the second type of an N question is not an interface itself */
    YIFGRUN_ANSWER_TOO_LONG = 13,    /* the answer, all answers together, or the tidied table is longer than the
                                        buffer */
    YIFGRUN_PACKAGE_ORDER = 14       /* package out of order: its path does not come after the one before */
};

#ifdef __cplusplus
}
#endif

#endif
