/* The library called from C, through its header: its calls, answers, refusals, and the buffers behind each. */
#include "yifgrun.h"

#include <stdio.h>
#include <stdlib.h>
#include <string.h>

static const char table[] =
    "typetable\t1\nP\toffice/cat\nT\tbasic\t2\nT\ttuple\nT\tfunc\t0\t1\t1\nT\tnamed\t4\nM\tClose\t0\t2\t1\n"
    "T\tstruct\nF\tLen\t0\t0\t0\nT\tpointer\t3\nT\tstruct\nF\tBlock\t0\t5\t1\nT\tnamed\t6\n"
    "T\tstruct\nF\tA\t0\t3\t1\nF\tB\t0\t5\t1\n";

/* The path on line 3 is that of line 2. */
static const char recurring[] = "typetable\t1\nP\toffice/cat\nP\toffice/cat\n";

/* Two slices of one type, and a pointer to the second. */
static const char untidy[] = "typetable\t1\nT\tbasic\t26\nT\tslice\t0\nT\tslice\t0\nT\tpointer\t2\n";

static uint8_t answer[64];

/* A work area of a word more than a call needs, and the words that it needs. */
static uint32_t *work;
static size_t needed;

/* The call that is tried: yifgrun_ask, then yifgrun_ask_all. */
typedef int64_t call(const uint8_t *, size_t, const uint8_t *, size_t, uint8_t *, size_t, uint32_t *, size_t);
static call *asks = yifgrun_ask;

/* Asks with the answer buffer full of '.' and the work area full of 7. */
static int64_t ask(const char *text, const char *question, size_t room, size_t words)
{
    size_t i;
    memset(answer, '.', sizeof answer);
    for (i = 0; i < needed + 1; i++)
        work[i] = 7;
    return asks((const uint8_t *)text, strlen(text), (const uint8_t *)question, strlen(question),
                answer, room, work, words);
}

/* Whether the first words of the work area are all this one, and the others untouched. */
static int work_is(uint32_t word, size_t words)
{
    size_t i;
    for (i = 0; i < needed + 1; i++)
        if (work[i] != (i < words ? word : 7))
            return 0;
    return 1;
}

static void print_answer(const char *text, const char *question)
{
    int64_t length = ask(text, question, sizeof answer, needed);
    if (length >= 0)
        printf("%.*s", (int)length, (const char *)answer);
    printf("rest %s, work %s\n", answer[length < 0 ? 0 : length] == '.' ? "kept" : "changed",
           work_is(0, needed) ? "zero" : "not zero");
}

static void print_refusal(const char *text, const char *question, size_t room, size_t words)
{
    int64_t number = ask(text, question, room, words);
    size_t i, kept = 0;
    for (i = 0; i < sizeof answer; i++)
        kept += answer[i] == '.';
    printf("refusal %d line %d, %s, work %s\n", YIFGRUN_REFUSAL(number), YIFGRUN_LINE(number),
           kept == sizeof answer ? "kept" : "changed",
           work_is(YIFGRUN_REFUSAL(number) == YIFGRUN_WORK_TOO_SHORT ? 7 : 0, words) ? "right" : "wrong");
}

static void ask_one(void)
{
    print_answer(table, "S\t7\t0\t0\tClose");
    print_answer(table, "S\t8\t0\t0\tLen");
    print_answer(table, "M\t7");
    print_answer(table, "C\t2");
    print_refusal(table, "V", sizeof answer, needed - 1);
    print_refusal("typetable\t1\nT\tnamed\t9\n", "V", sizeof answer, needed);
    print_refusal(recurring, "V", sizeof answer, needed);
    print_refusal(table, "X", 0, needed + 1);
    print_refusal(table, "M\t7", 3, needed);
}

static void ask_all(void)
{
    asks = yifgrun_ask_all;
    print_answer(table, "S\t8\t0\t0\tLen\nX\nC\t2\n");
    print_answer(table, "N\t3\t7\t0\n\nC\t0");
    print_answer(table, "");
    print_refusal(table, "V\nV\n", sizeof answer, needed - 1);
    print_refusal("typetable\t1\nT\tnamed\t9\n", "", sizeof answer, needed);
    print_refusal(recurring, "X\n", 0, needed + 1);
    print_refusal(table, "C\t2\nX\nC\t0\n", 19, needed);
}

/* yifgrun_tidy as a call that is tried like the others; what is asked is not looked at. */
static int64_t tidies(const uint8_t *text, size_t length, const uint8_t *asked, size_t asked_length,
                      uint8_t *output, size_t room, uint32_t *area, size_t words)
{
    (void)asked;
    (void)asked_length;
    return yifgrun_tidy(text, length, output, room, area, words);
}

static void tidy(void)
{
    asks = tidies;
    print_answer(untidy, "");
    print_refusal(untidy, "", sizeof answer, needed - 1);
    print_refusal("typetable\t1\nT\tnamed\t9\n", "", 0, needed);
    print_refusal(untidy, "", 44, needed + 1);
}

int main(void)
{
    uint32_t version = yifgrun_version();
    int refusal;
    needed = yifgrun_work_words();
    work = malloc((needed + 1) * sizeof *work);
    if (work == NULL)
        return 1;
    printf("version %d.%d.%d\n", YIFGRUN_MAJOR(version), YIFGRUN_MINOR(version), YIFGRUN_PATCH(version));
    ask_one();
    ask_all();
    tidy();
    asks = yifgrun_ask;
    refusal = YIFGRUN_REFUSAL(ask(recurring, "V", sizeof answer, needed));
    free(work);
    return refusal != YIFGRUN_PACKAGE_ORDER;
}
