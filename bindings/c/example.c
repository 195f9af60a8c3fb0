/* example FILE: takes the four bodies out of the submission in a file, as an intake form would hold them, writes the submission from
   these, and tries the other calls on what was written. A line is a call, what it was asked, and its answer; a refusal is `refused`, its
   number and its place. Where the contents don't fit the file, or the bodies are refused, the other calls get the file as it is.

   A refused submission ends with 0: it is an answer. The status is 1 where the file is not read or the output not written.

   cc example.c -I../../include -L../../target/staticlib -lchecker */
#include <checker.h>

#include <errno.h>
#include <stdbool.h>
#include <stdio.h>
#include <stdlib.h>
#include <string.h>

/* What a refusal's number is multiplied with; every other answer is below it. */
#define REFUSAL 65536

/* No submission is as long as this, so more bytes of a file are refused as these are. */
#define SUBMISSION 4096

/* A page of 128 steps, which are the most. */
#define PAGE (3 * 128 + 4)

/* Where the terms start in every submission. */
#define TERMS 16

/* The most terms, and so the longest page of inverses. */
#define MOST_TERMS 250

/* The shortest page for a deduction: a step of 4 bytes for each of the most terms. */
#define SHORTEST_SHEET (4 * MOST_TERMS)

/* What a program of the most steps is read back to: these and a claim. */
#define LONGEST_READ_BACK (4 * 128 + 4)

/* The longest submission: the most terms, 64 entries of knowledge, 128 steps and a claim. */
#define LONGEST (TERMS + 3 * MOST_TERMS + 64 + 4 * 128 + 4)

/* Terms, knowledge, derivation and claim. */
#define BODIES 4

struct body {
    const uint8_t *bytes;
    size_t length;
};

static bool is_refusal(uint32_t answer) { return answer >= REFUSAL; }

static void print_answer(uint32_t answer)
{
    if (is_refusal(answer))
        printf("refused %lu %lu\n", (unsigned long)(answer / REFUSAL), (unsigned long)(answer % REFUSAL));
    else
        printf("%lu\n", (unsigned long)answer);
}

static unsigned two_bytes(const uint8_t *at) { return at[0] * 256u + at[1]; }

/* Takes the bodies out of a submission. Answers false where its contents don't fit it. */
static bool take_bodies(const uint8_t *sub, size_t length, struct body *bodies)
{
    static const size_t record[BODIES] = {3, 1, 4, 4};
    size_t end = TERMS;
    if (length < TERMS)
        return false;
    for (int i = 0; i < BODIES; i++) {
        const uint8_t *entry = sub + 4 * i;
        bodies[i].bytes = sub + end;
        bodies[i].length = record[i] * entry[1];
        if (entry[0] != "TKDV"[i] || two_bytes(entry + 2) != end || bodies[i].length > length - end)
            return false;
        end += bodies[i].length;
    }
    return end == length;
}

/* The name of an accepted submission's guess: the claim starts where the contents' last entry says, with the guess's term number. */
static unsigned guess(const uint8_t *sub) { return two_bytes(sub + TERMS + 3 * sub[two_bytes(sub + 14)] + 1); }

/* Whether one of the listed atoms, of kinds 1 to 3, has this name. */
static bool is_listed(const uint8_t *sub, unsigned name)
{
    for (unsigned term = 0; term < sub[1]; term++) {
        const uint8_t *record = sub + TERMS + 3 * term;
        if (record[0] <= 3 && two_bytes(record + 1) == name)
            return true;
    }
    return false;
}

/* The first name after the right one that no listed atom has. Its atom and the inverse of it are then part of no message, so it is
   that of a wrong guess. */
static unsigned wrong_guess(const uint8_t *sub, unsigned right)
{
    unsigned name = right;
    while (is_listed(sub, name))
        name = (name + 1) % 65536;
    return name;
}

static void show_run(const uint8_t *sub, size_t length, unsigned name, const uint8_t *program, size_t program_length)
{
    printf("run %u ", name);
    print_answer(checker_run(sub, length, (uint16_t)name, program, program_length));
}

/* Asks for each term, up to the first number that is refused. */
static void show_deducible(const uint8_t *sub, size_t length)
{
    uint32_t answer = 0;
    for (unsigned term = 0; term < 256 && !is_refusal(answer); term++) {
        answer = checker_deducible(sub, length, (uint8_t)term);
        printf("deducible %u ", term);
        print_answer(answer);
    }
}

/* Prints the steps to each term, 4 bytes each, or no, up to the first number that is refused. */
static void show_deductions(const uint8_t *sub, size_t length)
{
    uint8_t page[SHORTEST_SHEET];
    uint32_t answer = 0;
    for (unsigned term = 0; term < 256 && !is_refusal(answer); term++) {
        answer = checker_deduction(sub, length, (uint8_t)term, page, sizeof page);
        printf("deduction %u ", term);
        if (is_refusal(answer)) {
            print_answer(answer);
            continue;
        }
        printf(answer == 0 ? "no" : "yes");
        for (uint32_t at = 0; answer != 0 && at < 4 * (answer - 1); at++)
            printf(" %u", (unsigned)page[at]);
        printf("\n");
    }
}

/* Prints the bytes on a page of which the answer is the count; or the refusal. */
static void print_page(const char *call, uint32_t answer, const uint8_t *page)
{
    printf("%s", call);
    if (is_refusal(answer)) {
        printf(" ");
        print_answer(answer);
        return;
    }
    for (uint32_t at = 0; at < answer; at++)
        printf(" %u", (unsigned)page[at]);
    printf("\n");
}

/* Prints the number of each term's inverse, 255 where none is listed. */
static void show_inverses(const uint8_t *sub, size_t length)
{
    uint8_t page[MOST_TERMS];
    uint32_t answer = checker_inverses(sub, length, page, sizeof page);
    print_page("inverses", answer, page);
}

/* Joins the submission with itself, as two listeners do who have heard the same: the pool is the submission again. */
static void show_join(const uint8_t *sub, size_t length)
{
    uint8_t page[LONGEST];
    uint32_t answer = checker_join(sub, length, sub, length, page, sizeof page);
    printf("join ");
    if (!is_refusal(answer) && (answer != length || memcmp(page, sub, length) != 0))
        printf("another ");
    print_answer(answer);
}

/* Prints the derivation and the claim that a program is read back to. */
static void show_read_back(const uint8_t *sub, size_t length, const uint8_t *program, size_t program_length)
{
    uint8_t page[LONGEST_READ_BACK];
    uint32_t answer = checker_read_back(sub, length, program, program_length, page, sizeof page);
    print_page("read_back", answer, page);
}

/* Writes the submission of these bodies to a page. */
static uint32_t show_write(const struct body *bodies, uint8_t *page, size_t page_length)
{
    const struct body *terms = &bodies[0], *knowledge = &bodies[1], *derivation = &bodies[2], *claim = &bodies[3];
    uint32_t answer = checker_write(terms->bytes, terms->length, knowledge->bytes, knowledge->length, derivation->bytes,
                                    derivation->length, claim->bytes, claim->length, page, page_length);
    printf("write ");
    print_answer(answer);
    return answer;
}

/* The other calls; and where the submission is accepted, the signals of the program on the page, which has 3N+4 bytes, with the
   submission's own guess and with a wrong one, and what it is read back to: the submission's own derivation and claim. */
static void show_calls(const uint8_t *sub, size_t length)
{
    uint8_t page[PAGE];
    uint32_t steps = checker_check(sub, length, page, sizeof page);
    printf(is_refusal(steps) ? "check " : "check accepted ");
    print_answer(steps);
    show_deducible(sub, length);
    show_deductions(sub, length);
    show_inverses(sub, length);
    show_join(sub, length);
    if (is_refusal(steps))
        return;
    size_t program_length = 3 * (size_t)steps + 4;
    unsigned right = guess(sub);
    show_run(sub, length, right, page, program_length);
    show_run(sub, length, wrong_guess(sub, right), page, program_length);
    show_read_back(sub, length, page, program_length);
}

static void show_all(const uint8_t *sub, size_t length)
{
    uint8_t written[LONGEST];
    struct body bodies[BODIES];
    if (take_bodies(sub, length, bodies)) {
        uint32_t answer = show_write(bodies, written, sizeof written);
        if (!is_refusal(answer)) {
            show_calls(written, answer);
            return;
        }
    }
    show_calls(sub, length);
}

/* Reads a file's first bytes. Answers false, with errno set, where that fails. */
static bool read_file(const char *path, uint8_t *bytes, size_t most, size_t *length)
{
    FILE *file = fopen(path, "rb");
    if (file == NULL)
        return false;
    *length = fread(bytes, 1, most, file);
    bool read = !ferror(file);
    int error = errno;
    fclose(file);
    errno = error;
    return read;
}

int main(int argc, char **argv)
{
    uint8_t sub[SUBMISSION];
    size_t length;
    if (argc != 2) {
        fprintf(stderr, "usage: example FILE\n");
        return EXIT_FAILURE;
    }
    if (!read_file(argv[1], sub, sizeof sub, &length)) {
        fprintf(stderr, "example: %s: %s\n", argv[1], strerror(errno));
        return EXIT_FAILURE;
    }
    show_all(sub, length);
    if (fflush(stdout) != 0 || ferror(stdout)) {
        fprintf(stderr, "example: output not written\n");
        return EXIT_FAILURE;
    }
    return EXIT_SUCCESS;
}
