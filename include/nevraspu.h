/*
 * nevraspu.h - the functions of target/staticlib/libnevraspu.a, for C99 and C++.
 *
 * The library elects a coordinator among the striker cabinets of a carillon: the Invitation
 * Algorithm of Garcia-Molina's paper, as documents 01 and 02 have it, and his Bully Algorithm for
 * small towers (02, T-07). It is written in Rattle and proved; README.md says what is proved and
 * what is trusted. The papers' "cabinet" is called "node" in the code and in the documents of the
 * repository. `tools/archive` writes the archive; it is for x86-64. It keeps nothing between
 * two calls, does no input or output, and every call comes back. A stack of 256 KiB is enough for
 * each function (measured).
 *
 *
 * HOW BYTES ARE HANDED IN AND OUT
 *
 * Wherever the code has a slice of bytes, C has a pointer and, directly behind it, a length. A
 * caller has only to hand in pointers that are good for their lengths, `out` apart from the
 * others. Any numbers and any bytes at all are then answered, the right ones and all others:
 *
 *   - a record or a table that is shorter than its form is read as if zeros stood behind it, and
 *     what is behind its form is not looked at;
 *   - a field is read alone: bytes behind it are not looked at;
 *   - a message has nothing behind it, else it is none; so it is with the two bytes that
 *     nevraspu_short_lists and nevraspu_aldebaran take;
 *   - a list of more than 65,536 bytes is refused by 2, and a text of more than 1,048,576 is bad;
 *   - with a length of 0 no byte is read or written there, the pointer is not looked at and may be
 *     null, and the call is answered like any other: no bytes at all are a field cut short, no
 *     message, an empty list, which is refused by 3, and a text without its first word.
 *
 * Where a function answers a number of enum nevraspu_answer, any number but 0 leaves `out` as it
 * was, and what `out` has behind the bytes that are named here is never changed.
 *
 *
 * THE BYTES, IN SHORT: numbers have their high byte first
 *
 *   field, 01 "The list and the printed table": tag 1, length of the contents 2, contents.
 *     0x10 crash, 0x11 recover, 0x12 check, 0x13 timeout, 0x14 tick, 0x15 expire: cabinet 1
 *     0x16 finish: cabinet 1, task 2
 *     0x17 deliver, 0x18 lose: sender 1, receiver 1
 *   list, as there: the field 0x01 (the tower) or 0x02 (the practice stand, 02, T-08) with the
 *     byte n, then events.
 *   record of a cabinet, 29 bytes:
 *     status 1 (0 Down, 1 Election, 2 Reorganization, 3 Normal), counter 4, group 4,
 *     coordinator 1, task 2, members 2 (a set: the lowest bit is cabinet 1), last call number 4,
 *     activity 11. 29 zero bytes are the record at the start.
 *   activity, 11 bytes: tag 1, set 2, former members 2, cabinet 1, caller 1, call number 4; what an
 *     activity does not have is 0. The tags, with what they have:
 *     0 idle; 1 asking (cabinet: whom it asks; set: found); 2 waiting (cabinet: ticks left; set:
 *     found); 3 inviting (cabinet: whom it invites; set: found; former members); 4 collecting;
 *     5 handing (cabinet: whom it hands the task; set: who is still to get it); 6 contacting;
 *     7 forwarding (cabinet: whom; set: who is still to get it; caller and call number to answer);
 *     8 accepting (caller and call number to answer)
 *   table, 4,436 bytes:
 *     n 1, 16 records, 64 messages of 14 bytes, the oldest first, how many of them wait 1, the
 *     counts sent, delivered and lost of 256 pairs (4 bytes each, from a to b at the place
 *     (a - 1) * 16 + b - 1), the limits of cabinets 1 and of messages 1.
 *     At the start: n, zeros, and last 16 and 64 (the tower) or 4 and 12 (the stand).
 *   message in a table, 14 bytes: sender 1, receiver 1, kind 1, call number 4, group 4, task 2,
 *     yes 1 or no 0, 1 byte; what its kind does not carry is 0. The kinds: 1 AreYouCoordinator,
 *     2 AreYouThere, 3 Invitation, 4 Accept, 5 Ready, 6 a reply.
 *   message on the cable, 13 to 25 bytes: fields, in this order
 *     0x20 sender 1, receiver 1, kind 1     all kinds: so sender and receiver are bytes 3 and 4
 *     0x21 call number 4                    all kinds
 *     0x22 group 4                          kinds 2 to 5
 *     0x23 task 2                           kind 5
 *     0x24 yes 1 or no 0, 1 byte            kind 6
 *   table of the Bully machine, 193 bytes: n 1, 16 records of 12. At the start: n, then zeros. Its
 *     events: 0x10 to 0x13 and 0x16 as above, 0x19 go on: cabinet 1.
 *   record of the Bully machine: runs 1 or not 0, 1 byte, status 1, coordinator 1, task 2, last
 *     halter 1, the set Up 2, place 4: tag 1 (0 idle, 1 asking, 2 halting, 3 announcing, 4 the
 *     reorganization point, 5 handing, 6 checking, 7 contacting), cabinet 1, a set 2.
 *
 * A status is read modulo 4, the tag of an activity modulo 9 and that of a place modulo 8, yes and
 * runs modulo 2. Every other number is read as it stands, and is in range or not.
 *
 *
 * THE TEXTS, IN SHORT: lines that end with 0x0A, numbers in decimal, single spaces between them
 *
 *   `cabinets N` (also for the stand, except in a list as text, where that is `stand N`);
 *   `refused E R`, the event E was refused by R; `stopped B R`, the list stops at its byte B by R.
 *   The table: for each cabinet number, status, coordinator, group, task, counter and how many
 *   members it has; then `messages`, `sent`, `delivered` and `lost`, each with its total.
 *   Where a list is refused as a whole or in its first field, and where the two bytes of
 *   nevraspu_short_lists or nevraspu_aldebaran are refused, the line `stopped 0 R` is the whole
 *   text. No other text begins with `stopped`.
 */
#ifndef NEVRASPU_H
#define NEVRASPU_H

#include <stddef.h>
#include <stdint.h>

#ifdef __cplusplus
extern "C" {
#endif

/* How many bytes these have. */
#define NEVRASPU_RECORD_SIZE 29       /* the record of a cabinet */
#define NEVRASPU_TABLE_SIZE 4436      /* a table */
#define NEVRASPU_RECOVERY_SIZE 232    /* the eight records that nevraspu_recovery gives */
#define NEVRASPU_TURN_SIZE 4439       /* what nevraspu_turn gives: a table and three bytes */
#define NEVRASPU_BULLY_TABLE_SIZE 193 /* a table of the Bully machine */
#define NEVRASPU_MESSAGE_MOST 25      /* the longest message on the cable */
#define NEVRASPU_OUTCOME_SIZE 55      /* what a controller gives: a record, a length, a message */
#define NEVRASPU_LIST_MOST 65536      /* the longest list */
#define NEVRASPU_SCRIPT_MOST 1048576  /* the longest text that nevraspu_list_of_text takes */
#define NEVRASPU_BAD_TEXT_MOST 128    /* no line that tells of a bad text has more */
#define NEVRASPU_PRINT_MOST 279149    /* no text of nevraspu_print has more */
#define NEVRASPU_TEXT_MOST 279149     /* the same, under its first name */
#define NEVRASPU_LIST_TEXT_MOST 278540 /* no text of nevraspu_text_of_list has more */
#define NEVRASPU_TRACE_MOST 16778240  /* no text of nevraspu_trace has more */
#define NEVRASPU_REST_MOST 279163     /* no text of nevraspu_rest has more */
#define NEVRASPU_ALDEBARAN_MOST 32768 /* no text of nevraspu_aldebaran has more */
#define NEVRASPU_SHORT_LISTS_MOST 13430775 /* the longest text of nevraspu_short_lists (measured) */

/* What a function that writes a text or a list answers where it does not fit (01's refusal 15);
 * nevraspu_short_lists writes as much as has room, and never answers it. */
#define NEVRASPU_NO_ROOM ((uint64_t)-1)

/* What nevraspu_list_of_text answers for a bad text, with the length of its message added. */
#define NEVRASPU_BAD_TEXT ((uint64_t)1 << 32)

/* The answers, by the numbers of 01 and 02. Which of them a function gives stands at it. Those of
 * the last part are met in texts alone (`stopped 0 6`), 15 is NEVRASPU_NO_ROOM. */
enum nevraspu_answer {
    NEVRASPU_ACCEPTED = 0,
    NEVRASPU_NOT_IN_RANGE = 1,     /* the table, or a controller's n, own number or record */
    NEVRASPU_CUT_SHORT = 3,        /* a field has fewer bytes than it says, or fewer than 3 */
    NEVRASPU_WRONG_TAG = 4,        /* the field's tag is no event of this function */
    NEVRASPU_WRONG_LENGTH = 5,     /* the field's length is wrong for its tag */
    NEVRASPU_WRONG_NUMBER = 7,     /* a cabinet outside 1 to n, or sender equals receiver */
    NEVRASPU_WRONG_TASK = 8,       /* finish with a task outside 100 to 65,535 */
    NEVRASPU_WRONG_STATUS = 9,     /* recover: not Down; all others but lose: Down (for deliver,
                                      the receiver) */
    NEVRASPU_WRONG_ACTIVITY = 10,  /* check, timeout: not idle; tick: not waiting; expire: no open
                                      call; finish: not collecting */
    NEVRASPU_NO_MESSAGE = 11,      /* deliver, lose: no message from a to b */
    NEVRASPU_COUNTER_AT_END = 12,  /* a new group is needed, and the counter is 1,048,575 */
    NEVRASPU_CALLS_AT_END = 13,    /* a call is needed, and the last call number is 16,777,215 */
    NEVRASPU_QUEUE_FULL = 14,      /* a message is needed, and as many wait as may */
    NEVRASPU_SENT_AT_END = 17,     /* a message is needed; its pair's sent count is 33,554,430 */
    NEVRASPU_NOT_COORDINATOR = 18, /* check: not Normal, or not its own coordinator */
    NEVRASPU_NO_MAJORITY = 19,     /* finish with a full peal, task 100 to 199: the coordinator and
                                      its members are not more than half of n */
    NEVRASPU_WRONG_MESSAGE = 20,   /* the bytes are no message, or hold a number out of range, or
                                      sender equals receiver */
    NEVRASPU_OTHER_CABINET = 21,   /* the event or the message is for another cabinet */
    NEVRASPU_SHORT_OUT = 255,      /* `out` is too short */

    NEVRASPU_LIST_TOO_LONG = 2,    /* the whole list: over 65,536 bytes */
    NEVRASPU_WRONG_COUNT = 6,      /* a list's first field: n is not 1 to 16, on the stand 1 to 4 */
    NEVRASPU_WRONG_SHORT_LISTS = 16, /* not exactly two bytes, or one outside its range (T-01) */
    NEVRASPU_WRONG_SYSTEM = 22     /* the same of T-12 */
};


/* ---- one cabinet's controller (02, T-11) ----
 *
 * A controller has its own record and nothing else: no table, no queue. It is told of one event or
 * one message, and gives the record after it and at most one message to send. A program that calls
 * these two functions alone gets nothing else of the archive linked.
 *
 * From any table in range, n controllers over one queue of messages answer as the whole table does
 * (nevraspu_step), event by event, apart from lose, deliver with nothing waiting, and 14 and 17,
 * which belong to the queue: where whoever runs them does this:
 *
 *   (a) Keep the record. After answer 0 the first 29 bytes of `out` are the cabinet's record; hand
 *       them in at the next call. After any other answer the record is the one handed in. The
 *       record at the start is 29 zero bytes. It has to outlast a power cut: that is the event
 *       crash, which keeps all but status and activity, and a counter that is cleared brings an
 *       old group number back.
 *   (b) Keep record and message together. Where the queue can't take the outgoing message (01's
 *       refusal 14, no room), keep the OLD record, as if the event had been refused with 14. A
 *       delivered message is already out when room is looked for.
 *   (c) Take a delivered message out of the queue only where it is answered by 0. By any other
 *       answer it waits as before, until it is accepted or lost.
 *   (d) Of the messages from one cabinet to another, deliver the oldest.
 */

/*
 * One event other than deliver and lose, at cabinet `own` of n. The record is the cabinet's, 29
 * bytes; the field is the event.
 *
 * The answer, in the order in which it is looked for:
 *   255             out_len is below NEVRASPU_OUTCOME_SIZE
 *   3, 4, 5         no event of a controller: cut short, or no bytes at all; another tag, those of
 *                   deliver and lose too; a length that is wrong for the tag
 *   1               n is not 1 to 16, own not 1 to n, or the record not in range for them
 *   7, 8            a cabinet that is not 1 to n; a task that no finish may give
 *   21              the event is for another cabinet
 *   9, 10, 18, 19   refused by the record
 *   12, 13          refused at the end of a range
 *   0               accepted
 * Out, where 0 is answered: the record after the event, 29 bytes; the length of the outgoing
 * message, 1 byte, 0 for none; its bytes, and zeros up to byte 55. Where not, as it was.
 */
uint8_t nevraspu_controller_event(uint8_t n, uint8_t own,
                                  const uint8_t *record, size_t record_len,
                                  const uint8_t *field, size_t field_len,
                                  uint8_t *out, size_t out_len);

/*
 * One message that has reached cabinet `own` of n. The message is its bytes, all of them and
 * nothing behind them. The others are as above.
 *
 * The answer, in the order in which it is looked for:
 *   255     out_len is below NEVRASPU_OUTCOME_SIZE
 *   1       n, own or the record is out of range, as above
 *   20      the bytes are no message: not of that form, a number out of range, or the same sender
 *           and receiver
 *   21      the message is for another cabinet
 *   9       the cabinet is Down
 *   12, 13  refused at the end of a range
 *   0       accepted
 * Out is as above.
 */
uint8_t nevraspu_controller_message(uint8_t n, uint8_t own,
                                    const uint8_t *record, size_t record_len,
                                    const uint8_t *message, size_t message_len,
                                    uint8_t *out, size_t out_len);


/* ---- the machine over a table of all cabinets ---- */

/*
 * One event on a table. The field is any event of a list.
 *
 * The answer, in the order in which it is looked for:
 *   255          out_len is below NEVRASPU_TABLE_SIZE
 *   1            the table is not in range, its limits included
 *   3, 4, 5      no event: cut short, or no bytes at all; a tag that is no event's; a length that
 *                is wrong for the tag
 *   7, 8, 9, 10, 18, 19, 11, 12, 13, 14, 17
 *                the event is refused
 *   0            accepted
 * Out, where 0 is answered: the table after the event, 4,436 bytes, with 0 in all places that are
 * no part of it. Where not, as it was.
 */
uint8_t nevraspu_step(const uint8_t *table, size_t table_len,
                      const uint8_t *field, size_t field_len,
                      uint8_t *out, size_t out_len);

/*
 * The eight records of a cabinet of a table, one after each assignment of its recovery, as
 * Garcia-Molina's paper prints it (02, T-04).
 *
 * The answer: 255, looked for first, where out_len is below NEVRASPU_RECOVERY_SIZE; then 1, 7, 9
 * or 12, as the event recover is refused; 0 accepted.
 * Out, where 0 is answered: eight records, 232 bytes; the last is the one that the event recover
 * leaves in the table, and the others may be out of range. Where not, as it was.
 */
uint8_t nevraspu_recovery(const uint8_t *table, size_t table_len,
                          uint8_t node,
                          uint8_t *out, size_t out_len);

/*
 * A turn of the driver, which goes round the ordered pairs of cabinets and chooses deliveries
 * itself (02, T-09). The place in the round is a, the sender, and b, the receiver: of the first
 * turn any pair, such as 1 and 2, and then the place that the last turn left.
 *
 * The answer, in the order in which it is looked for:
 *   255  out_len is below NEVRASPU_TURN_SIZE
 *   1    the table is not in range
 *   7    a and b are no pair of the table's cabinets, where it has more than one
 *   0    accepted
 * Out, where 0 is answered: the table after the turn, 4,436 bytes, with 0 in all places that are no
 * part of it; the place of the next turn, sender and receiver, 2 bytes; what was done, 1 byte: 0
 * nothing, 1 the oldest message from a to b was delivered, 2 it was lost. Where not, as it was.
 * With one cabinet a turn does nothing, and the next place is a and b as they were.
 */
uint8_t nevraspu_turn(const uint8_t *table, size_t table_len,
                      uint8_t a, uint8_t b,
                      uint8_t *out, size_t out_len);

/*
 * How many events of a list, up to its end or to where it stops, are accepted, from the starting
 * table. 0 where the whole list or its first field is refused.
 */
uint32_t nevraspu_fold(const uint8_t *list, size_t list_len);

/*
 * The text that the bench program prints for a list.
 *
 * The answer: the length of the text, which stands whole at the start of out; or NEVRASPU_NO_ROOM
 * where it does not fit, and then its lines from the first on stand there, up to the one that has
 * no room. What is behind the last line written is left as it was. An out of
 * NEVRASPU_PRINT_MOST bytes always has the room.
 */
uint64_t nevraspu_print(const uint8_t *list, size_t list_len,
                        uint8_t *out, size_t out_len);

/*
 * A list run step by step, as the program `trace` prints it: `cabinets` and n; a line for each
 * event, with its number, the event as text, and `accepted` or `refused` and the refusal's number;
 * below an accepted one, behind two spaces, the record that changed, as in the table, with its
 * activity in words, and the messages taken out and put in, as in `sent 2 -> 1 Invitation group 33
 * call 2`; where the list stops, `stopped`, the offset and the refusal's number; last the table.
 *
 * The answer: the length of the text, which stands whole at the start of out; or NEVRASPU_NO_ROOM
 * where it does not fit, and then its pieces from the first on (the first line, the lines of each
 * event, the table at the end) stand there, up to the one that has no room. What is behind the last
 * piece written is left as it was. An out of NEVRASPU_TRACE_MOST bytes always has the room: a piece
 * has at most 1,024 bytes, and there are at most 16,385. Most traces are far shorter.
 */
uint64_t nevraspu_trace(const uint8_t *list, size_t list_len,
                        uint8_t *out, size_t out_len);

/*
 * A list run, and then turns of the driver from the pair 1 and 2 on until no message waits (02,
 * T-13), as the program `rest` prints it: the bench's text, and in place of its table `turns` and
 * how many turns were made, those that do nothing too, and the table behind them. A cabinet may
 * still wait, collect or have a call open there.
 *
 * The answer: the length of the text, which stands whole at the start of out; or NEVRASPU_NO_ROOM
 * where it does not fit, and then its lines from the first on stand there, up to the one that has
 * no room. What is behind the last line written is left as it was. An out of NEVRASPU_REST_MOST
 * bytes always has the room.
 */
uint64_t nevraspu_rest(const uint8_t *list, size_t list_len,
                       uint8_t *out, size_t out_len);


/* ---- lists as text ---- */

/*
 * A list as text: `cabinets` or `stand` and n, then a line for each event; where the list stops,
 * `stopped`, the offset and the refusal's number. Nothing is run.
 *
 * The answer: the length of the text, which stands whole at the start of out; or NEVRASPU_NO_ROOM
 * where it does not fit, and then its lines from the first on stand there, up to the one that has
 * no room. What is behind the last line written is left as it was. An out of
 * NEVRASPU_LIST_TEXT_MOST bytes always has the room.
 */
uint64_t nevraspu_text_of_list(const uint8_t *list, size_t list_len,
                               uint8_t *out, size_t out_len);

/*
 * The list of a text: `cabinets` or `stand` and n, then events by their names and numbers, as in
 * `recover 1`, `finish 2 100` or `deliver 2 1`, parted by a comma or line ends; blanks and empty
 * lines may stand between, and `#` starts a comment, which goes to the end of its line. Numbers go
 * to 255, tasks to 65,535; which of them are right the machine says.
 *
 * The answer:
 *   below NEVRASPU_BAD_TEXT  the length of the list, which stands at the start of out
 *   NEVRASPU_BAD_TEXT + k    the text is bad: the k bytes at the start of out are a line that
 *                            says where, the column in bytes, and what was expected there, as in
 *                            `line 2, column 9: expected a number from 0 to 255`
 *   NEVRASPU_NO_ROOM         what is to be written does not fit: out is as it was
 * What is behind what is written is left as it was. An out of NEVRASPU_LIST_MOST bytes always has
 * the room; one of fewer than NEVRASPU_BAD_TEXT_MOST may have none for the line, and then a bad
 * text is not told from a list. A text may have NEVRASPU_SCRIPT_MOST bytes; a longer one is bad at
 * the first byte too many.
 */
uint64_t nevraspu_list_of_text(const uint8_t *text, size_t text_len,
                               uint8_t *out, size_t out_len);


/* ---- all short lists (02, T-01 and T-12) ---- */

/*
 * A part of the text that the program `short_lists` prints: a line for each list of exactly that
 * many events that the machine accepts one after another from the tower's starting table, finish
 * with task 100 only, as in `recover 1, check 1`, and a last line `lists` and how many they are.
 * The input is two bytes: n, 1 to 3, and the length, 0 to 7. For any other input the text is the
 * line `stopped 0 16`.
 *
 * The answer: how many bytes stand at the start of out: those of the text from its byte `from` on,
 * counted from 0, as many as there are and as have room. It is below out_len only at the end of the
 * text, and 0 where out_len is 0 or `from` is at the end or past it. An answer of out_len leaves
 * open whether more follows. What is behind these bytes is left as it was. Calls for the same
 * input, the first from 0 and each other from where the one before ended, up to one that answers
 * less than its out_len, give the text, whole.
 *
 * What it costs: nothing is kept between two calls, and each searches from the first list on, up to
 * where out is full. So lend a large out; NEVRASPU_SHORT_LISTS_MOST bytes have room for any text.
 */
uint64_t nevraspu_short_lists(const uint8_t *input, size_t input_len,
                              uint64_t from,
                              uint8_t *out, size_t out_len);

/*
 * The same lists, of 0 to L events, as a transition system in the Aldebaran form, as the program
 * `aldebaran` prints it: `des (0, t, s)` with the counts of transitions and states, and t lines
 * such as `(5, "LOSE 1 2", 22)`. The input is two bytes: n, 1 to 3, and L, 0 to 4. For any other
 * input the text is the line `stopped 0 22`.
 *
 * The answer: the length of the text, which stands whole at the start of out; or NEVRASPU_NO_ROOM
 * where it does not fit, and then out is as it was. What is behind the text is left as it was. An
 * out of NEVRASPU_ALDEBARAN_MOST bytes always has the room.
 */
uint64_t nevraspu_aldebaran(const uint8_t *input, size_t input_len,
                            uint8_t *out, size_t out_len);


/* ---- the Bully machine (02, T-07) ---- */

/*
 * One event on a table of the Bully machine.
 *
 * The answer, in the order in which it is looked for:
 *   255      out_len is below NEVRASPU_BULLY_TABLE_SIZE
 *   3, 4, 5  no event of this machine: cut short, or no bytes at all; a tag that is no event's; a
 *            length that is wrong for the tag
 *   1        the table is not in range
 *   7, 8     a cabinet that is not 1 to n; a task that no finish may give
 *   9        recover: the cabinet runs; all others: it does not run
 *   10       check, timeout: not idle; go on: no call to make; finish: not at the reorganization
 *            point
 *   0        accepted
 * Out, where 0 is answered: the table after the event, 193 bytes, with 0 in all places that are no
 * part of it. Where not, as it was.
 */
uint8_t nevraspu_bully_step(const uint8_t *table, size_t table_len,
                            const uint8_t *field, size_t field_len,
                            uint8_t *out, size_t out_len);

#ifdef __cplusplus
}
#endif

#endif
