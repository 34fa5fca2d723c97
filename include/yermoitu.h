/* Yermoitu, the press portal's reference monitor, its converter of sheets and the guard of its presses, for programs in C and C++.

   `scripts/library` proves them and writes target/staticlib/libyermoitu.a, for x86-64
   Linux. Link it behind your own files. It has no variables of its own, takes no memory from the
   heap, needs less than 2 KB of stack, and calls nothing but memcpy. (Where a loader looks memcpy up
   only in its first call, that call needs the loader's stack too, some 2.5 KB.)

   A state is YERMOITU_WORDS unsigned 16-bit words that the caller lends for each call. A call is a
   record of bytes: its length (2 bytes, the low byte first, counting the whole record), its kind (2
   bytes, likewise), the caller (1 byte; 16 is the operator) and its arguments (1 byte each). A press
   with nothing to report hands in a record of no bytes, its sign of life: accepted with verdict 0,
   and no word is changed.

   An answer is four numbers in one: the refusal in bits 0 to 15, the verdict in bits 16 to 31, an
   issuer in bits 32 to 39, its role in bits 40 to 47, and 0 above. The refusal is 0 where the call was
   accepted, else the number of the first cause, 1 to 14; they are tried from 1 upwards, but 14 between
   10 and 11. The verdict is 1, a yes, where kind 21 was accepted and the session may use the
   permission, else 0. With a yes, issuer and role say through which role: of the roles that hold the
   permission and that an active role of the session reaches (itself, or by attachments), the one with
   the lowest issuer number, then the lowest role number. Without a yes both are 255, for every other
   kind and in starting's answer too; so an answer as a whole is never 0.

   Kind 19 activates any role of the session's issuer that a role held by its user reaches (itself,
   or by attachments, through other issuers' roles too), and gives 11 for another. An accepted call
   that breaks such a reach drops the active role, whoever makes the call: kinds 2, 4, 8, 16 and 23
   in any issuer's open sessions, 12 in the caller's own; 12 drops nothing that is still reached.
   Only kind 19 brings a dropped role back.

   A sheet is an estate's list as CSV (RFC 4180): each row, ended by CR and LF, which the last one may
   lack, is a word and the arguments of its call, decimals 0 to 15 without leading zeros: user,u
   role,r perm,p trust,j give,u,r grant,p,i,r attach,q,i,r. A field may stand between double quotes.
   There is no heading and no blank line.

   32 presses, numbered 0 to 31, stand on the floor. Their controller keeps two lists of 32 bytes, each
   press's owner, an issuer 0 to 15, and its stage: 0 idle, 1 loaded, 2 pressing, 3 held. Actions are 0
   load (0 to 1), 1 start (1 to 2), 2 pause (2 to 3), 3 resume (3 to 2) and 4 empty (1 or 3 to 0). Each
   needs the owner's permission of the action's number: action 2 on a press of issuer 1 goes ahead for
   those sessions to which kind 21, asked by issuer 1 for its permission 2, gives verdict 1.

   What the caller owes, since nothing can test it:
   - where `words` is YERMOITU_WORDS, `state` points to so many words, aligned as uint16_t is, each
     written before with any value; where it is another number, `state` is not used and may be null;
   - `record` points to `bytes` bytes, and may be null where `bytes` is 0; none of them lies in the
     state's words;
   - `csv` points to `csv_bytes` bytes and `out` to `out_bytes`, each written before with any value;
     each may be null where its number is 0; they don't overlap;
   - `owners` points to `owners_len` bytes and `stages` to `stages_len`, each written before with any
     value; each may be null where its number is 0; they overlap neither each other nor the state's words;
   - nobody else reads or writes the state, `out` or `stages`, or writes the record, `csv` or `owners`,
     until the function returns: calls on one state come one after the other, calls on different states
     may run at the same time.

   What it gets: each function returns, whatever the words, the bytes and the numbers are. It writes to
   the state's words, to `out` or to `stages`, and to nothing else that the caller has. It reads no byte
   outside the words and the record, outside `csv` and `out`, or outside the words, `owners` and `stages`. */
#ifndef YERMOITU_H
#define YERMOITU_H

#include <stddef.h>
#include <stdint.h>

#define YERMOITU_WORDS 9041

/* The four numbers of an answer. */
#define YERMOITU_REFUSAL(answer) ((unsigned)((uint64_t)(answer) & 0xffff))
#define YERMOITU_VERDICT(answer) ((unsigned)((uint64_t)(answer) >> 16 & 0xffff))

/* The issuer, 0 to 15, of the role that gave the yes; without a yes 255, YERMOITU_NO_ROLE. */
#define YERMOITU_ISSUER(answer) ((unsigned)((uint64_t)(answer) >> 32 & 0xff))

/* That role's number within its issuer, 0 to 15; without a yes 255, YERMOITU_NO_ROLE. */
#define YERMOITU_ROLE(answer) ((unsigned)((uint64_t)(answer) >> 40 & 0xff))

#define YERMOITU_NO_ROLE 255

/* What yermoitu_sheet returns: the error, and the bytes written, or the line where the error is 15. */
#define YERMOITU_ERROR(made) ((unsigned)((uint64_t)(made) & 0xffff))
#define YERMOITU_TOLD(made) ((uint64_t)(made) >> 16)

/* The presses, their stages and the actions on them. */
#define YERMOITU_PRESSES 32

enum { YERMOITU_IDLE, YERMOITU_LOADED, YERMOITU_PRESSING, YERMOITU_HELD };
enum { YERMOITU_LOAD, YERMOITU_START, YERMOITU_PAUSE, YERMOITU_RESUME, YERMOITU_EMPTY };

#ifdef __cplusplus
extern "C" {
#endif

/* Starts a state: nothing enrolled, every session closed. Whatever the words were is lost.
   Refusal 0, or 1 where `words` is not YERMOITU_WORDS, and then nothing is written. */
uint64_t yermoitu_start(uint16_t *state, size_t words);

/* Plays a record on a state. Where the refusal is not 0, no word is changed.
   Among the refusals: 1 where `words` is not YERMOITU_WORDS, 2 where the words are no lawful state,
   such as zeros that were never started, 3 where there are bytes and they are no call record. To a
   record of no bytes the answer is refusal 0, 1 or 2. */
uint64_t yermoitu_call(uint16_t *state, size_t words, const uint8_t *record, size_t bytes);

/* Makes call records of a sheet, for one caller: end to end from the start of `out`.
   The error is in bits 0 to 15; above them are the bytes written, or the line where the error is 15.
   Error 0: every row became a record, and the rest of `out` is as it was. A sheet of no bytes gives
   no records. 15: the caller is above 15, at line 0, or else the first row that isn't of the form
   above, its line from 1. 16, tried after 15: the records don't fit in `out`. Where the error isn't 0,
   no byte of `out` is changed. A record has no more bytes than its row. */
uint64_t yermoitu_sheet(const uint8_t *csv, size_t csv_bytes, uint8_t caller, uint8_t *out, size_t out_bytes);

/* An action on a press, for session `session` of issuer `issuer`. Returns the error, the first that applies:
   17: a list isn't YERMOITU_PRESSES bytes, `press` is above 31, `action` above 4, any owner in the list above
   15 or any stage above 3; 18: the desk, asked by the press's owner, refuses (a state that isn't lawful, say)
   or gives verdict 0; 19: the press's stage is the wrong one for the action. 0: it goes ahead, and the press's
   own byte of `stages` is its new stage. No other byte of `stages` is changed, none where the error isn't 0,
   and no word of the state ever. */
uint64_t yermoitu_press(uint16_t *state, size_t words, const uint8_t *owners, size_t owners_len, uint8_t *stages, size_t stages_len,
                        uint8_t press, uint8_t action, uint8_t issuer, uint8_t session);

#ifdef __cplusplus
}
#endif

#endif
