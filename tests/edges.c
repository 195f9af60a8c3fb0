/* The calls at the edges of what C can pass: null with length 0, and buffers at odd addresses. Compiled as C and as C++. */
#include <checker.h>

#include <stdio.h>
#include <string.h>

#define REFUSED(number, place) ((uint32_t)(number) * 65536 + (place))

static const uint8_t M1[] = {
    0x54, 0x03, 0x00, 0x10, 0x4B, 0x02, 0x00, 0x19, 0x44, 0x01, 0x00, 0x1B, 0x56, 0x01, 0x00, 0x1F, 0x01, 0x00,
    0x01, 0x01, 0x00, 0x02, 0x05, 0x00, 0x01, 0x00, 0x02, 0x04, 0x02, 0x01, 0x00, 0x01, 0x00, 0x62, 0x00,
};
static const uint8_t M1_PAGE[] = {0x01, 0x04, 0x01, 0x02, 0x3D, 0x03, 0x00};

/* What M1's page is read back to: its own derivation and claim. */
static const uint8_t M1_READ_BACK[] = {0x04, 0x02, 0x01, 0x00, 0x01, 0x00, 0x62, 0x00};

/* M1 has no keys with an inverse. */
static const uint8_t M1_INVERSES[] = {0xFF, 0xFF, 0xFF};

/* The plain atoms 1 and 2 and the pair of them, of which the pair is known, no step, and a claim that is not looked at; the step that
   takes the first part out; and the shortest page for it. */
static const uint8_t KNOWN_PAIR[] = {
    0x54, 0x03, 0x00, 0x10, 0x4B, 0x01, 0x00, 0x19, 0x44, 0x00, 0x00, 0x1A, 0x56, 0x01, 0x00, 0x1A,
    0x01, 0x00, 0x01, 0x01, 0x00, 0x02, 0x04, 0x00, 0x01, 0x02, 0x00, 0x00, 0x62, 0x00,
};
static const uint8_t FIRST_PART[] = {0x01, 0x02, 0x00, 0x00};
enum { SHEET = 1000 };

/* M2, which lists M1's terms and has the last alone in its knowledge; and the pool of M2 with M1. */
static const uint8_t M2[] = {
    0x54, 0x03, 0x00, 0x10, 0x4B, 0x01, 0x00, 0x19, 0x44, 0x01, 0x00, 0x1A, 0x56, 0x01, 0x00, 0x1E, 0x01,
    0x00, 0x01, 0x01, 0x00, 0x02, 0x05, 0x00, 0x01, 0x02, 0x04, 0x02, 0x01, 0x00, 0x01, 0x00, 0x62, 0x00,
};
static const uint8_t POOL[] = {
    0x54, 0x03, 0x00, 0x10, 0x4B, 0x02, 0x00, 0x19, 0x44, 0x01, 0x00, 0x1B, 0x56, 0x01, 0x00, 0x1F, 0x01, 0x00,
    0x01, 0x01, 0x00, 0x02, 0x05, 0x00, 0x01, 0x02, 0x00, 0x04, 0x02, 0x01, 0x00, 0x01, 0x00, 0x62, 0x00,
};

/* Where M1's bodies start, and how long they are. */
enum { TERMS = 16, KNOWLEDGE = 25, DERIVATION = 27, CLAIM = 31 };
enum { TERMS_LEN = 9, KNOWLEDGE_LEN = 2, DERIVATION_LEN = 4, CLAIM_LEN = 4 };

static int failures;

static void expect(const char *call, uint32_t expected, uint32_t found)
{
    if (expected == found)
        return;
    printf("%s: 0x%lX and not 0x%lX\n", call, (unsigned long)found, (unsigned long)expected);
    failures++;
}

/* Writes the submission of the bodies that stand in these bytes as they do in M1. */
static uint32_t write_again(const uint8_t *sub, uint8_t *page, size_t page_len)
{
    return checker_write(sub + TERMS, TERMS_LEN, sub + KNOWLEDGE, KNOWLEDGE_LEN, sub + DERIVATION, DERIVATION_LEN, sub + CLAIM, CLAIM_LEN,
                         page, page_len);
}

static void try_null(void)
{
    uint8_t page[sizeof M1_PAGE];
    expect("check, no submission", REFUSED(1, 0), checker_check(NULL, 0, page, sizeof page));
    expect("check, nothing", REFUSED(1, 0), checker_check(NULL, 0, NULL, 0));
    expect("check, no page", REFUSED(11, 7), checker_check(M1, sizeof M1, NULL, 0));
    expect("deducible, no submission", REFUSED(1, 0), checker_deducible(NULL, 0, 0));
    expect("run, no submission", REFUSED(1, 0), checker_run(NULL, 0, 2, M1_PAGE, sizeof M1_PAGE));
    expect("run, nothing", REFUSED(1, 0), checker_run(NULL, 0, 2, NULL, 0));
    expect("run, no program", REFUSED(13, 0), checker_run(M1, sizeof M1, 2, NULL, 0));
    expect("inverses, no submission", REFUSED(1, 0), checker_inverses(NULL, 0, page, sizeof page));
    expect("inverses, nothing", REFUSED(1, 0), checker_inverses(NULL, 0, NULL, 0));
    expect("inverses, no page", REFUSED(11, sizeof M1_INVERSES), checker_inverses(M1, sizeof M1, NULL, 0));
    expect("read back, no submission", REFUSED(1, 0), checker_read_back(NULL, 0, M1_PAGE, sizeof M1_PAGE, page, sizeof page));
    expect("read back, nothing", REFUSED(1, 0), checker_read_back(NULL, 0, NULL, 0, NULL, 0));
    expect("read back, no program", REFUSED(13, 0), checker_read_back(M1, sizeof M1, NULL, 0, page, sizeof page));
    expect("read back, no page", REFUSED(11, sizeof M1_READ_BACK), checker_read_back(M1, sizeof M1, M1_PAGE, sizeof M1_PAGE, NULL, 0));
    expect("deduction, no submission", REFUSED(1, 0), checker_deduction(NULL, 0, 0, page, sizeof page));
    expect("deduction, nothing", REFUSED(1, 0), checker_deduction(NULL, 0, 0, NULL, 0));
    expect("deduction, no page", REFUSED(19, SHEET), checker_deduction(M1, sizeof M1, 0, NULL, 0));
    expect("deduction, no term, no page", REFUSED(12, 0), checker_deduction(M1, sizeof M1, 3, NULL, 0));
    expect("join, no first", REFUSED(1, 0), checker_join(NULL, 0, M1, sizeof M1, page, sizeof page));
    expect("join, no second", REFUSED(1, 0), checker_join(M1, sizeof M1, NULL, 0, page, sizeof page));
    expect("join, nothing", REFUSED(1, 0), checker_join(NULL, 0, NULL, 0, NULL, 0));
    expect("join, no page", REFUSED(11, sizeof M1), checker_join(M1, sizeof M1, M1, sizeof M1, NULL, 0));
}

static void try_null_bodies(void)
{
    const uint8_t *terms = M1 + TERMS, *claim = M1 + CLAIM;
    uint8_t page[TERMS + TERMS_LEN + CLAIM_LEN];
    expect("write, nothing", REFUSED(2, 0), checker_write(NULL, 0, NULL, 0, NULL, 0, NULL, 0, NULL, 0));
    expect("write, no body", REFUSED(2, 0), checker_write(NULL, 0, NULL, 0, NULL, 0, NULL, 0, page, sizeof page));
    expect("write, a ragged body only", REFUSED(14, 0), checker_write(NULL, 0, NULL, 0, NULL, 0, claim, CLAIM_LEN - 1, NULL, 0));
    expect("write, no claim", REFUSED(2, 3), checker_write(terms, TERMS_LEN, NULL, 0, NULL, 0, NULL, 0, page, sizeof page));
    expect("write, terms and claim", sizeof page, checker_write(terms, TERMS_LEN, NULL, 0, NULL, 0, claim, CLAIM_LEN, page, sizeof page));
    expect("write, no page", REFUSED(11, sizeof M1), write_again(M1, NULL, 0));
}

/* The submission, what is written from its bodies, and the page and then the program, each this many bytes into a buffer. */
static void try_offset(size_t offset)
{
    uint8_t sub[sizeof M1 + 8], written[sizeof M1 + 8], page[sizeof M1_PAGE + 8];
    memcpy(sub + offset, M1, sizeof M1);
    expect("write", sizeof M1, write_again(sub + offset, written + offset, sizeof M1));
    expect("the submission", 0, memcmp(written + offset, M1, sizeof M1) != 0);
    expect("write, a byte short", REFUSED(11, sizeof M1), write_again(sub + offset, written + offset, sizeof M1 - 1));
    expect("check", 1, checker_check(sub + offset, sizeof M1, page + offset, sizeof M1_PAGE));
    expect("the page", 0, memcmp(page + offset, M1_PAGE, sizeof M1_PAGE) != 0);
    expect("deducible", 0, checker_deducible(sub + offset, sizeof M1, 1));
    expect("run, right", 1, checker_run(sub + offset, sizeof M1, 2, page + offset, sizeof M1_PAGE));
    expect("run, wrong", 0, checker_run(sub + offset, sizeof M1, 3, page + offset, sizeof M1_PAGE));
    expect("run, stale", REFUSED(15, 0), checker_run(sub + offset, sizeof M1, 1, page + offset, sizeof M1_PAGE));
    expect("run, a byte short", REFUSED(13, 0), checker_run(sub + offset, sizeof M1, 2, page + offset, sizeof M1_PAGE - 1));
}

/* The submission and the page for the inverses, each this many bytes into a buffer. The bytes before the page and behind it stay. */
static void try_inverses_offset(size_t offset)
{
    enum { TERM_COUNT = sizeof M1_INVERSES };
    uint8_t sub[sizeof M1 + 8], page[TERM_COUNT + 9] = {0}, expected[TERM_COUNT + 9] = {0};
    memcpy(sub + offset, M1, sizeof M1);
    expect("inverses, a byte short", REFUSED(11, TERM_COUNT), checker_inverses(sub + offset, sizeof M1, page + offset, TERM_COUNT - 1));
    expect("the page of a refusal", 0, memcmp(page, expected, sizeof page) != 0);
    memcpy(expected + offset, M1_INVERSES, TERM_COUNT);
    expect("inverses", TERM_COUNT, checker_inverses(sub + offset, sizeof M1, page + offset, TERM_COUNT));
    expect("the inverses", 0, memcmp(page, expected, sizeof page) != 0);
    expect("inverses, a byte more", TERM_COUNT, checker_inverses(sub + offset, sizeof M1, page + offset, TERM_COUNT + 1));
    expect("the inverses again", 0, memcmp(page, expected, sizeof page) != 0);
}

/* The submission, the program and the page for what it is read back to, each this many bytes into a buffer. The bytes before the page and
   behind it stay. */
static void try_read_back_offset(size_t offset)
{
    enum { LENGTH = sizeof M1_READ_BACK };
    uint8_t sub[sizeof M1 + 8], program[sizeof M1_PAGE + 8], page[LENGTH + 9] = {0}, expected[LENGTH + 9] = {0};
    memcpy(sub + offset, M1, sizeof M1);
    memcpy(program + offset, M1_PAGE, sizeof M1_PAGE);
    expect("read back, a byte short", REFUSED(11, LENGTH),
           checker_read_back(sub + offset, sizeof M1, program + offset, sizeof M1_PAGE, page + offset, LENGTH - 1));
    expect("the page of a refusal", 0, memcmp(page, expected, sizeof page) != 0);
    memcpy(expected + offset, M1_READ_BACK, LENGTH);
    for (size_t more = 0; more < 2; more++) {
        expect("read back", LENGTH,
               checker_read_back(sub + offset, sizeof M1, program + offset, sizeof M1_PAGE, page + offset, LENGTH + more));
        expect("the bodies", 0, memcmp(page, expected, sizeof page) != 0);
    }
}

/* The submission and the page for the steps, each this many bytes into a buffer. Only the bytes of the steps are written. */
static void try_deduction_offset(size_t offset)
{
    enum { YES = 1, LENGTH = sizeof FIRST_PART };
    uint8_t sub[sizeof KNOWN_PAIR + 8], page[SHEET + 9], expected[SHEET + 9];
    memset(page, 0xA5, sizeof page);
    memset(expected, 0xA5, sizeof expected);
    memcpy(sub + offset, KNOWN_PAIR, sizeof KNOWN_PAIR);
    expect("deduction, a byte short", REFUSED(19, SHEET), checker_deduction(sub + offset, sizeof KNOWN_PAIR, 0, page + offset, SHEET - 1));
    expect("deduction, no term", REFUSED(12, 0), checker_deduction(sub + offset, sizeof KNOWN_PAIR, 3, page + offset, SHEET));
    expect("deduction, known", YES, checker_deduction(sub + offset, sizeof KNOWN_PAIR, 2, page + offset, SHEET));
    expect("the page of no steps", 0, memcmp(page, expected, sizeof page) != 0);
    memcpy(expected + offset, FIRST_PART, LENGTH);
    for (size_t more = 0; more < 2; more++) {
        expect("deduction", YES + 1, checker_deduction(sub + offset, sizeof KNOWN_PAIR, 0, page + offset, SHEET + more));
        expect("the step", 0, memcmp(page, expected, sizeof page) != 0);
    }
}

/* The two submissions, the second of them one byte further, and the page for their pool, each this many bytes into a buffer. The bytes
   before the page and behind it stay. */
static void try_join_offset(size_t offset)
{
    enum { LENGTH = sizeof POOL };
    uint8_t first[sizeof M2 + 8], second[sizeof M1 + 9], page[LENGTH + 9] = {0}, expected[LENGTH + 9] = {0};
    memcpy(first + offset, M2, sizeof M2);
    memcpy(second + offset + 1, M1, sizeof M1);
    expect("join, a byte short", REFUSED(11, LENGTH),
           checker_join(first + offset, sizeof M2, second + offset + 1, sizeof M1, page + offset, LENGTH - 1));
    expect("the page of a refusal", 0, memcmp(page, expected, sizeof page) != 0);
    memcpy(expected + offset, POOL, LENGTH);
    for (size_t more = 0; more < 2; more++) {
        expect("join", LENGTH, checker_join(first + offset, sizeof M2, second + offset + 1, sizeof M1, page + offset, LENGTH + more));
        expect("the pool", 0, memcmp(page, expected, sizeof page) != 0);
    }
}

/* One buffer for both: only the page is written. */
static void try_join_with_itself(void)
{
    uint8_t page[sizeof M1];
    expect("join with itself", sizeof M1, checker_join(M1, sizeof M1, M1, sizeof M1, page, sizeof page));
    expect("the pool of one", 0, memcmp(page, M1, sizeof page) != 0);
}

/* M1's guess is not deducible. */
static void try_no_deduction(void)
{
    uint8_t page[SHEET], expected[SHEET];
    memset(page, 0xA5, sizeof page);
    memset(expected, 0xA5, sizeof expected);
    expect("deduction, the guess", 0, checker_deduction(M1, sizeof M1, 1, page, sizeof page));
    expect("the page of a no", 0, memcmp(page, expected, sizeof page) != 0);
}

int main(void)
{
    try_null();
    try_null_bodies();
    try_no_deduction();
    try_join_with_itself();
    for (size_t offset = 0; offset < 8; offset++) {
        try_offset(offset);
        try_inverses_offset(offset);
        try_read_back_offset(offset);
        try_deduction_offset(offset);
        try_join_offset(offset);
    }
    return failures != 0;
}
