/* The checker's eight calls, in libchecker.a (tests/library). bindings/ has an example in C, and a safe wrapper for Rust.

   Answers. Every call takes any bytes and ends. An answer is one number. A refusal is number * 65536 + place, with the numbers and
   places of docs/VERDICTS.md; every other answer is below 65536. That each call answers what the definitions under crates/ give, and
   leaves those bytes on the page, is proved: the contracts are in crates/checker_c/src/lib.rt. Stack, threads and null, below, are
   properties of the compiled library: tried and measured, not proved.

   Buffers. A buffer is a pointer to bytes and their number, with no demand on alignment. Only the page is written, and no other buffer
   overlaps it. For an empty buffer pass any valid pointer and 0. Null with 0 is not promised by the language; in the library as it is
   compiled it is harmless, since no call follows a pointer before it has looked at the length, and the tests try it.

   Stack. A call needs at most 96 KB of stack, for every input. Less than 26 KB is the most that was measured.

   Threads. The library has no variables, allocates nothing and makes no system call, so any number of threads may call at once. While a
   call runs, nothing else writes its buffers, and nothing else reads its page.

   Linking. cc program.c -Iinclude -Ltarget/staticlib -lchecker, with the library after what calls it. It needs nothing but
   memcpy, memmove and memset of the C library. It is for Linux on x86-64, with the System V calling convention, and position independent,
   so it links into shared objects too.

   Guesses. With the program of an accepted submission, run signals 1 for the name of the submission's own guess and 0 for the name of
   every wrong guess. The atom meant by a name is the one of the guess's kind. A name is that of a wrong guess where it is not the
   guess's own, and neither its atom nor, for a key, the atom's inverse is part of a message in the knowledge: the message itself or
   anything that it is made from at any depth, keys included. So a name that no listed atom has is always that of a wrong guess. The
   remaining names are stale, and run refuses them with 15: every name that it takes, other than the guess's own, is that of a wrong guess.
   A 15 says nothing about the protocol; another name will do. The guess's own name is taken also where it is part of the knowledge. */
#ifndef CHECKER_H
#define CHECKER_H

#include <stddef.h>
#include <stdint.h>

#ifdef __cplusplus
extern "C" {
#endif

/* Checks a submission. An acceptance is the count N of its steps; the first 3N+4 bytes of the page are then its register program, and
   the others are as before. In ways a, b and c it means that the five conditions hold: the knowledge doesn't give the guess, but a guess
   can be confirmed. In way k it means that the guess is deducible from the knowledge, and in way j that the inverse of the guess is. In
   these two N may be 0. A refusal is 1 to 11 or 16, and leaves the page as it was; that a submission is refused doesn't mean that its
   secret is safe. A page of 388 bytes is never too short. */
uint32_t checker_check(const uint8_t *sub, size_t sub_len, uint8_t *page, size_t page_len);

/* 1 where some finite list of Dolev-Yao steps reaches the term of this number from the submission's knowledge, and 0 where none does.
   A refusal is 1 to 4 or 12. */
uint32_t checker_deducible(const uint8_t *sub, size_t sub_len, uint8_t term);

/* The signal, 1 or 0, of a register program over the submission's knowledge and a guess of this name. After an acceptance the program is
   exactly the first 3N+4 bytes of the page: any other length is refused with 13. A stale name is refused with 15, which is tried last (see
   Guesses). A refusal is 1 to 5, 13 or 15. */
uint32_t checker_run(const uint8_t *sub, size_t sub_len, uint16_t name, const uint8_t *program, size_t program_len);

/* Writes the submission of four bodies, as an intake form holds them, to the page: contents first, then the terms, the knowledge, the
   derivation and the claim. The answer is the count of bytes written, which are the first of the page; the others are as before. A refusal
   is 14 where a body is not whole records, then 2 where a count is outside its limits, then 11, with the submission's length as place, and
   leaves the page as it was. Nothing else is looked at: whether the records are good is for checker_check to say. A page of 1,346 bytes is
   never too short. */
uint32_t checker_write(const uint8_t *terms, size_t terms_len, const uint8_t *knowledge, size_t knowledge_len, const uint8_t *derivation,
                       size_t derivation_len, const uint8_t *claim, size_t claim_len, uint8_t *page, size_t page_len);

/* Finds the inverses of the submission's terms. The page gets one byte for each term, the number of its inverse, or 255 where none is
   listed. A public and a private key with one name are each other's inverse; any other term gets 255. The answer is the count T of terms;
   the first T bytes of the page are written, and the others are as before. A refusal is 1 to 4, then 11, with T as place, and leaves the
   page as it was. The derivation and the claim are counted only. A page of 250 bytes is never too short. */
uint32_t checker_inverses(const uint8_t *sub, size_t sub_len, uint8_t *page, size_t page_len);

/* Reads a program back, such as one cut from a paper: turns a program over the submission's terms, knowledge and guess into a derivation
   and a claim. Each register's term is what the machine holds with the right guess, which is the submission's own. The page gets the
   derivation, one step for each of the program's n, then the claim. The answer is 4n+4, the count of bytes written, which are the first of
   the page; the others are as before. The claim has the submission's own guess, and for the rest the test is read as the layout writes it:

     first register   second register   test   way   step                  companion
     the guess's      a step's          = i    k j   the second register   0
     the guess's      a knowledge one   = i    k j   255                   0
     a step's         any               i      c     the first register    the term that the second register holds
     a step's         a step's          =      a     the first register    the second register
     a step's         a lower one       =      b     the first register    0

   What the second register holds is not looked at in way b, nor with 255; so a program that signals 0 may be read back to bodies that are
   accepted. A refusal is 1 to 5, for which the submission's own derivation and claim count, then 13, then 17 where a register's term isn't
   listed, with the first such register as place, then 18 where the test's first register is a knowledge register or both of its registers
   are the guess's, then 11, with 4n+4 as place, and leaves the page as it was. A page of 516 bytes is never too short.

   The page of an accepted submission gives back its own derivation and claim. Two bodies read back from an accepted page, put in the place
   of the submission's own (checker_write) and checked again, yield that page. Bodies read back from another program pass checks 1 to 4 and
   6 in that place, and may still be refused: with 5 in way j where the guess is no key, with 7 in ways j and k where a premise is
   the guess, which doesn't count as known there, and with 8, 9, 10 or 16. */
uint32_t checker_read_back(const uint8_t *sub, size_t sub_len, const uint8_t *program, size_t program_len, uint8_t *page, size_t page_len);

/* Shows the deduction of the term of this number: where it is deducible from the submission's knowledge, as checker_deducible says, a
   derivation that reaches it. The answer is 0 for no, which writes nothing, and 1 + n for yes, n the count of steps written: the first 4n
   bytes of the page are then n step records, as in the body of the derivation (rule, p, q, conclusion), and the others are as before. A
   term in the knowledge gets no steps: n is then 0, and in no other case. Where several derivations exist, which one is given is free; of
   each that is given this holds:

     - each step is one of the table of rules over the listed terms: its numbers are below T, q is 0 where the rule has one premise;
     - each step is founded on the knowledge alone: a premise is in the knowledge or concluded by an earlier one of the steps, and the
       guess counts for nothing;
     - no conclusion is known beforehand: it is neither in the knowledge nor concluded by an earlier step;
     - the last conclusion is the term asked for;
     - every other step concludes a premise of a later one, so what the last conclusion doesn't need is left out;
     - there are never more steps than listed terms. They may be more than the 128 that a submission's derivation has at most; up to these,
       they pass checks 6 and 7 in the place of the submission's own derivation (checker_write, checker_check).

   A refusal is 1 to 4, then 12 for a number not below T, then 19 for a page under 1,000 bytes, with 1,000 as place, and leaves the page as
   it was. The derivation and the claim of the submission are counted only. A page of 1,000 bytes is never too short. */
uint32_t checker_deduction(const uint8_t *sub, size_t sub_len, uint8_t term, uint8_t *page, size_t page_len);

/* Joins two submissions: pools what two listeners have heard. The page gets the pool as a submission, contents first:

     - the first's terms, byte for byte, then those of the second that the first lacks, in order and renumbered: a part gets its number
       in the pool. Terms are compared as what they are and not by their bytes: a term of the second that the first has, under whatever
       number, is not added, and what is made from it gets the first's number for it. Atoms are the same where kind and name are;
     - the first's knowledge, then the second's entries that are not there yet, in order and under their numbers in the pool;
     - the first's derivation and claim. Those of the second are looked at by checks 1 to 5 only.

   The answer is the count of bytes written, which are the first of the page; the others are as before. A refusal is 1 to 5 for the first
   submission, then 1 to 5 for the second, and doesn't say which of the two is meant; then 20, at 0, for a pool above 250 terms or
   above 64 entries, then 11, with the pool's length as place. It leaves the page as it was. A page of 1,346 bytes is never too short. The two
   submissions may be one buffer.

   The pool passes checks 1 to 5. Its terms are exactly those of the two, its knowledge is exactly their messages, and each term of the
   first keeps its number. A term deducible from either is deducible from the pool, under its number there. So a first submission that is
   accepted may become reachable: on a page that is long enough, checker_check accepts the pool with the same N, or refuses it with 8 at
   the verifying step, and answers nothing else; in ways k and j it accepts it. Where the second has no term and no message that the
   first lacks, and the page has room, the pool is written, and is the first, byte for byte. So a submission joined with itself is given
   back, and so is a pool that is joined, as the first, with either of its two once more. */
uint32_t checker_join(const uint8_t *first, size_t first_len, const uint8_t *second, size_t second_len, uint8_t *page, size_t page_len);

#ifdef __cplusplus
}
#endif

#endif
