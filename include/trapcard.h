/* The card store of the moth trap.
 *
 * Every function returns the number of document 01: 0 for done, else the cause. A refused call leaves every byte as it was,
 * but for TRAPCARD_ERR_POWER when the power ended in the call itself: then the orders carried out have happened, open and
 * group stand, and the record is down until a cut and a recover.
 *
 * At a power loss the card may tear any block that has waiting writes, except block 0: each byte of such a block is then the settled
 * one or that of one of those writes. Block 0 stays as it was settled, or is one of the writes to it, whole. What is said here of a
 * power loss holds on such a card too.
 *
 * Blocks are saved by transactions: trapcard_put, trapcard_commit, trapcard_sync. A photograph goes straight to its blocks instead,
 * by trapcard_direct. Its writes wait until the next flush, and until then a power loss may tear them; a trapcard_sync of an empty
 * group is a barrier that makes them safe. Whether a save is found does not depend on them; a saved block that is written directly
 * afterwards is a photograph from then on.
 *
 * A buffer is a pointer and a length in bytes, of any alignment. A buffer that is const here is never written. The proofs
 * assume of the caller: pointers that are not null, with true lengths, also where a length is 0; buffers that do not overlap
 * where one of them is written (trapcard_alike may be given one card twice); and that nobody else writes them meanwhile.
 * Out-parameters are set on every return, to 0 where there is nothing to say.
 *
 * The record is TRAPCARD_RECORD bytes: mode, N, open count, group count, log count, waiting count, power count, 4 bytes each,
 * then the log's sum and the save number, 8 bytes each; all little-endian. Another record length is TRAPCARD_ERR_SIZE in every
 * call that takes one.
 *
 * The save number counts the saves of a card, in its header and in the record (trapcard_save): 0 after trapcard_format, one more
 * after each sync of a group that is not empty and that returned 0. A sync that power ended leaves the record's number; in the
 * record of a boot, and of a cut, it is 0. trapcard_recover hands back the number of the save it found: it counts the
 * saves that are in the disk found, those that returned 0 and each that power ended and a recovery found new, checksum collisions
 * apart. So after a power loss in save k + 1 it is k + 1 if that save is found and k if it is not. trapcard_apply keeps the number.
 *
 * Boot, the first time and after every power loss:
 *   1. settled is the card as it is found; waiting and work have their lengths and any bytes.
 *   2. trapcard_closed_record makes the record: closed, N set, counts 0, the empty list's sum, save number 0. A cut leaves the
 *      same one, but for the power count, which it keeps.
 *   3. trapcard_power, before any orders: the record just made has power for none.
 *   4. trapcard_recover. After 0 the record is open and has the number of the save found. After TRAPCARD_ERR_FOREIGN or
 *      TRAPCARD_ERR_UNSOUND this is no card of N blocks that a format made and these calls alone wrote since; trapcard_format
 *      makes it one, and forgets what it held. It does so at once with a foreign card, one that is lent with a wrong length included. It
 *      turns down an unsound one whose header has a count above 0, and the firmware has to give that card up first (trapcard_format
 *      says how).
 *
 * "Checksum collisions apart" says: unless, at a power loss before, the log found on the card was another list than the log
 * written, as long and with the same sum.
 */
#ifndef TRAPCARD_H
#define TRAPCARD_H

#include <stddef.h>
#include <stdint.h>

#ifdef __cplusplus
extern "C" {
#endif

/* Sizes in bytes. The settled bytes are N blocks, TRAPCARD_LEAST to TRAPCARD_MOST of them. */
#define TRAPCARD_BLOCK 512u
#define TRAPCARD_RECORD 44u
#define TRAPCARD_WAITING 34056u
#define TRAPCARD_WORK 33024u
#define TRAPCARD_LEAST 35u
#define TRAPCARD_MOST 65536u

/* The first data block; the last is N - 1. The most entries that open, group and log hold, the most writes that wait, and the most
 * that wait in an open record. */
#define TRAPCARD_FIRST 34u
#define TRAPCARD_SLOTS 32u
#define TRAPCARD_PLACES 66u
#define TRAPCARD_DIRECT 32u

/* The most addresses of a list. */
#define TRAPCARD_LIST 32u

/* The byte of the record where each of its numbers starts. */
#define TRAPCARD_RECORD_MODE 0u
#define TRAPCARD_RECORD_BLOCKS 4u /* N */
#define TRAPCARD_RECORD_OPEN 8u
#define TRAPCARD_RECORD_GROUP 12u
#define TRAPCARD_RECORD_LOG 16u
#define TRAPCARD_RECORD_WAITING 20u
#define TRAPCARD_RECORD_POWER 24u
#define TRAPCARD_RECORD_SUM 28u
#define TRAPCARD_RECORD_SAVE 36u

/* Modes, the record's first number. The sum of an empty log. */
#define TRAPCARD_MODE_CLOSED 0u
#define TRAPCARD_MODE_OPEN 1u
#define TRAPCARD_MODE_DOWN 2u
#define TRAPCARD_EMPTY_SUM UINT64_C(14695981039346656037)

/* What a call returns: done, or the cause by its number in document 01. */
#define TRAPCARD_DONE 0u
#define TRAPCARD_ERR_SIZE 1u     /* a length is wrong, or N out of bounds */
#define TRAPCARD_ERR_STATE 2u    /* the record does not fit the bytes */
#define TRAPCARD_ERR_CLOSED 3u   /* mode closed */
#define TRAPCARD_ERR_POWER 4u    /* mode down, or power gone in the call */
#define TRAPCARD_ERR_OPEN 5u     /* recover when open */
#define TRAPCARD_ERR_ADDRESS 6u  /* not a data block */
#define TRAPCARD_ERR_FULL 7u     /* over 32 entries in open or group */
#define TRAPCARD_ERR_FOREIGN 8u  /* the header is not this card's, of another format, or of a save without a number */
#define TRAPCARD_ERR_UNSOUND 9u  /* neither list is good */
#define TRAPCARD_ERR_MARKS 10u   /* marks not 512 for each waiting write, a mark over 1, or unlike marks for a write to block 0 */
#define TRAPCARD_ERR_LAST 12u    /* sync of a group that is not empty, at the largest save number, 2^64 - 1 */
#define TRAPCARD_ERR_IN_USE 13u  /* format of a card whose header is not foreign and has a count above 0 */
#define TRAPCARD_ERR_LISTED 14u  /* direct write of an address that open, group or log has */

/* The buffer in which trapcard_get found its block. */
#define TRAPCARD_NOWHERE 0u
#define TRAPCARD_IN_SETTLED 1u
#define TRAPCARD_IN_WORK 2u
#define TRAPCARD_IN_WAITING 3u

/* Makes a fresh card: zeros everywhere, an empty log, save number 0, the record open with power 1,000,000. Returns 0, 1 or 13, and
 * looks at nothing but lengths and block 0: not at what the record holds, nor at any list. 13, TRAPCARD_ERR_IN_USE, is for a card
 * whose header trapcard_recover would not call foreign, N being that of the buffer, and whose count is above 0. On a card that these
 * calls left its log has saves then, or the header is that of a save that power cut off; of another, trapcard_recover may return 9.
 * Every byte is left.
 *
 * 13 does not protect every card with saves. After trapcard_apply they are in the home blocks, the header's count is 0, and a format
 * wipes them out; likewise a save onto an empty log whose header still waits, and photographs, which are in no log. A card that is lent with another length than it was
 * formatted with is foreign, as is one of format 1, and a format takes it. Whoever wants to know what a card holds lends it with the
 * length that it was formatted with and recovers it first; TRAPCARD_ERR_FOREIGN does not say that a card is empty.
 *
 * To give a card up on purpose, overwrite block 0 of it with zeros, outside the store; then format it:
 *     memset(settled, 0, TRAPCARD_BLOCK);
 * Such a card is foreign, and what it held can't be recovered any more. No call here does this.
 *
 * Not safe against power loss: a card that was cut off while it was formatted is formatted again, and given up again first if its
 * old header still stands. */
uint32_t trapcard_format(uint8_t *record, size_t record_len, uint8_t *settled, size_t settled_len, uint8_t *waiting,
                         size_t waiting_len, uint8_t *work, size_t work_len);

/* Sets the power count: how many orders to the card still happen. Returns 0, 1 or 2. Changes the record alone. Every order takes
 * 1 from it, also where no power is ever lost, and at 0 the next call with orders returns TRAPCARD_ERR_POWER: set it again before
 * it runs down. No sync, apply or recovery takes more than 70; how many the next one takes, and whether the count reaches, is asked
 * with trapcard_sync_cost, trapcard_apply_cost and trapcard_recover_cost. A direct write takes 1 or 2. */
uint32_t trapcard_power(uint8_t *record, size_t record_len, const uint8_t *settled, size_t settled_len, const uint8_t *waiting,
                        size_t waiting_len, const uint8_t *work, size_t work_len, uint32_t count);

/* Puts a block of 512 bytes into the open transaction, in place of one with that address. Returns 0, 1 to 4, 6 or 7. Changes
 * the record and work memory; nothing reaches the card, so a power loss forgets it. */
uint32_t trapcard_put(uint8_t *record, size_t record_len, const uint8_t *settled, size_t settled_len, const uint8_t *waiting,
                      size_t waiting_len, uint8_t *work, size_t work_len, uint32_t address, const uint8_t *block,
                      size_t block_len);

/* Writes a block of 512 bytes of a photograph straight to its data block, outside any transaction; trapcard_get finds it from then
 * on. Returns 0, 1 to 4, 6 or 14: TRAPCARD_ERR_LISTED if open, group or log has the address, which trapcard_sync moves from the
 * group into the log and trapcard_apply takes out of it. Changes the record and the waiting bytes and, where it flushes, the
 * settled bytes. *orders: the orders carried out, 1, or 2 with TRAPCARD_DIRECT writes waiting: it flushes those first. If power
 * ends in the call it is 0, or 1 if the flush happened; this block is then nowhere on the card.
 *
 * After 0 the write waits until a flush. Every trapcard_sync that gives orders flushes before it returns 0, one of an empty group
 * too; so does a trapcard_apply of a log that is not empty, and a direct write with TRAPCARD_DIRECT waiting. Then every later
 * recovery finds the block, until it is written or saved anew. If power is lost before the flush, in another call too, the next
 * recovery finds each byte of the block as it was settled or as any of the writes to it that waited; unless it finds a save that
 * power cut off and that has the address, whose block it finds then. What was found so stays. All other blocks are found as if no
 * direct write had waited. All this holds checksum collisions apart.
 *
 * So a save that names a photograph comes behind a barrier: the direct writes, trapcard_sync of an empty group, and when that has
 * returned 0 put, commit and sync of what names it. Without the barrier these writes wait beside the save's own, and the save may
 * be found where the photograph is torn. */
uint32_t trapcard_direct(uint8_t *record, size_t record_len, uint8_t *settled, size_t settled_len, uint8_t *waiting,
                         size_t waiting_len, const uint8_t *work, size_t work_len, uint32_t address, const uint8_t *block,
                         size_t block_len, uint32_t *orders);

/* Finds the newest block at an address: of open, group, log, the direct writes that wait, or the home block. Returns 0, 1 to 4 or
 * 6. Sets *buffer to TRAPCARD_IN_SETTLED, TRAPCARD_IN_WORK or TRAPCARD_IN_WAITING and *offset to the byte where its 512 bytes start
 * there, or both to 0 when refused. Changes nothing; the place is good until the next call that writes that buffer. */
uint32_t trapcard_get(const uint8_t *record, size_t record_len, const uint8_t *settled, size_t settled_len,
                      const uint8_t *waiting, size_t waiting_len, const uint8_t *work, size_t work_len, uint32_t address,
                      uint32_t *buffer, uint64_t *offset);

/* A list of gets: the newest block at each address, copied out in the order listed. `addresses` are 4 bytes each, little-endian, 0 to
 * TRAPCARD_LIST of them, repeats allowed; `blocks` is TRAPCARD_BLOCK bytes for each. Every block is what trapcard_get finds. Returns 0,
 * 1 to 4 or 6: 1 also if addresses_len is no multiple of 4 or over 4 * TRAPCARD_LIST, or if blocks_len is not TRAPCARD_BLOCK for each
 * address; 6 if any address is not a data block. Refused, nothing is copied. *slots: how many slots of the log were read for it: the
 * log count if the list is served and has any address, else 0. Changes `blocks` and nothing else; what it copied there stays, whatever
 * is called next. */
uint32_t trapcard_get_list(const uint8_t *record, size_t record_len, const uint8_t *settled, size_t settled_len,
                           const uint8_t *waiting, size_t waiting_len, const uint8_t *work, size_t work_len,
                           const uint8_t *addresses, size_t addresses_len, uint8_t *blocks, size_t blocks_len, uint32_t *slots);

/* Moves the open entries into the group, each in place of one with its address, and empties open. Returns 0, 1 to 4 or 7.
 * Changes the record and work memory; a power loss forgets the group. */
uint32_t trapcard_commit(uint8_t *record, size_t record_len, const uint8_t *settled, size_t settled_len,
                         const uint8_t *waiting, size_t waiting_len, uint8_t *work, size_t work_len);

/* Empties the open transaction. Returns 0 or 1 to 4. Changes the record alone. */
uint32_t trapcard_abandon(uint8_t *record, size_t record_len, const uint8_t *settled, size_t settled_len,
                          const uint8_t *waiting, size_t waiting_len, const uint8_t *work, size_t work_len);

/* Saves the group as one: after 0 it is on the card, and every later recovery finds its blocks, until a later save or a direct write
 * replaces them. Returns 0, 1 to 4 or 12. If power ends in the call, or at any moment before it returns, the next recovery finds all
 * of the group or none of it. Both hold checksum collisions apart. The save number is one more after 0. An empty group saves nothing
 * and leaves the number: such a sync is a barrier, one flush if direct writes wait, and no order if none does. *orders: the orders
 * carried out. */
uint32_t trapcard_sync(uint8_t *record, size_t record_len, uint8_t *settled, size_t settled_len, uint8_t *waiting,
                       size_t waiting_len, const uint8_t *work, size_t work_len, uint32_t *orders);

/* Writes the log home and empties it. Returns 0 or 1 to 4. The disk that a recovery finds is the same before, after and wherever
 * power ends in the call, checksum collisions and direct writes that wait apart; these are settled by it, unless the log is empty,
 * for then it gives no orders. *orders: the orders carried out. */
uint32_t trapcard_apply(uint8_t *record, size_t record_len, uint8_t *settled, size_t settled_len, uint8_t *waiting,
                        size_t waiting_len, const uint8_t *work, size_t work_len, uint32_t *orders);

/* Opens a closed record on a card: the log written last if all of it is there, else the one before it, checksum collisions
 * apart; the record has the number of the save found. Returns 0, 1, 2, 4, 5, 8 or 9; never 8 or 9 on a card that a format made and
 * these calls alone wrote since. Two orders suffice; if power ends in the call, recover again after the cut. *orders: the orders
 * carried out. */
uint32_t trapcard_recover(uint8_t *record, size_t record_len, uint8_t *settled, size_t settled_len, uint8_t *waiting,
                          size_t waiting_len, const uint8_t *work, size_t work_len, uint32_t *orders);

/* What a sync will take, asked before it is made. Refuses as that sync does, power gone aside: returns 0, 1 to 4 or 12, and
 * TRAPCARD_ERR_POWER only for a record that is down. Changes nothing. The figures are those of trapcard_sync made next on the same
 * bytes and record, but for power enough; all are 0 when refused. *orders: the orders carried out. *applies: 1 if an apply comes
 * first, else 0. *peak: the most writes that wait at any moment of it, earlier ones included. *reaches: 1 if the record's power
 * count is at least *orders, else 0. After 0 with *reaches 1, that sync does not return TRAPCARD_ERR_POWER; with *reaches 0, it
 * does. */
uint32_t trapcard_sync_cost(const uint8_t *record, size_t record_len, const uint8_t *settled, size_t settled_len,
                            const uint8_t *waiting, size_t waiting_len, const uint8_t *work, size_t work_len, uint32_t *orders,
                            uint32_t *applies, uint32_t *peak, uint32_t *reaches);

/* The same of trapcard_apply. Returns 0 or 1 to 4. *applies is 0. */
uint32_t trapcard_apply_cost(const uint8_t *record, size_t record_len, const uint8_t *settled, size_t settled_len,
                             const uint8_t *waiting, size_t waiting_len, const uint8_t *work, size_t work_len, uint32_t *orders,
                             uint32_t *applies, uint32_t *peak, uint32_t *reaches);

/* The same of trapcard_recover. Returns 0, 1, 2, 4, 5, 8 or 9. *applies is 0. It checks the log as the recovery does, which takes
 * as long. */
uint32_t trapcard_recover_cost(const uint8_t *record, size_t record_len, const uint8_t *settled, size_t settled_len,
                               const uint8_t *waiting, size_t waiting_len, const uint8_t *work, size_t work_len,
                               uint32_t *orders, uint32_t *applies, uint32_t *peak, uint32_t *reaches);

/* The power loss itself, for tests, on a card that may tear a block. Marks are TRAPCARD_BLOCK bytes for each waiting write, oldest
 * first, one for each byte of its block: 1 kept or 0 lost. Each byte of a block becomes that of the newest waiting write to it whose
 * mark there is 1, and stays as it is settled where there is none. Block 0 is never torn: the marks of a write to it are all 1 or
 * all 0. Then the queue is empty and the record closed. Returns 0, 1, 2 or 10; 10 if marks_len is not TRAPCARD_BLOCK times the waiting
 * count, if a mark is over 1, or if the marks of a write to block 0 are unlike. */
uint32_t trapcard_cut(uint8_t *record, size_t record_len, uint8_t *settled, size_t settled_len, const uint8_t *waiting,
                      size_t waiting_len, const uint8_t *work, size_t work_len, const uint8_t *marks, size_t marks_len);

/* The sum of all data bytes after the log is laid over, from the settled bytes alone: direct writes that wait are not in it, nor
 * does trapcard_alike see them. Returns 0, 1, 8 or 9. Changes nothing. */
uint32_t trapcard_tally(const uint8_t *settled, size_t settled_len, uint64_t *sum);

/* Whether two cards are the same but for save number and leftovers: *yes is 1 if N is equal, the logs that a recovery would take have
 * the same count and the same address and block in each slot, and all data blocks after the log is laid over are equal; else 0. The
 * save number takes no part, nor do slots beyond the count or home blocks that the log replaces. Returns 0, 1, 8 or 9, the first card's
 * refusal first. Changes nothing. Cards of which this is 1, recovered and given the same power, give the same answers, orders and
 * blocks at every call until the next cut or the largest save number. */
uint32_t trapcard_alike(const uint8_t *settled_a, size_t settled_a_len, const uint8_t *settled_b, size_t settled_b_len,
                        uint32_t *yes);

/* The 512 bytes at a place that trapcard_get gave, or a null pointer for TRAPCARD_NOWHERE. */
static inline const uint8_t *trapcard_block(const uint8_t *settled, const uint8_t *waiting, const uint8_t *work, uint32_t buffer,
                                            uint64_t offset)
{
    if (buffer == TRAPCARD_IN_SETTLED)
        return settled + offset;
    if (buffer == TRAPCARD_IN_WAITING)
        return waiting + offset;
    if (buffer == TRAPCARD_IN_WORK)
        return work + offset;
    return NULL;
}

/* One of the record's 4-byte numbers, by where it starts. */
static inline uint32_t trapcard_record_number(const uint8_t *record, size_t at)
{
    uint32_t number = 0;
    for (size_t i = 0; i < 4; i++)
        number |= (uint32_t)record[at + i] << (8 * i);
    return number;
}

/* The record's save number. */
static inline uint64_t trapcard_save(const uint8_t *record)
{
    uint64_t number = 0;
    for (size_t i = 0; i < 8; i++)
        number |= (uint64_t)record[TRAPCARD_RECORD_SAVE + i] << (8 * i);
    return number;
}

/* Makes the TRAPCARD_RECORD bytes of a closed record for a card of N blocks, with power for no orders: what trapcard_recover
 * takes at boot, once trapcard_power has set the power. */
static inline void trapcard_closed_record(uint8_t *record, uint32_t blocks)
{
    for (size_t i = 0; i < TRAPCARD_RECORD; i++)
        record[i] = 0;
    record[TRAPCARD_RECORD_MODE] = TRAPCARD_MODE_CLOSED;
    for (size_t i = 0; i < 4; i++)
        record[TRAPCARD_RECORD_BLOCKS + i] = (uint8_t)(blocks >> (8 * i));
    for (size_t i = 0; i < 8; i++)
        record[TRAPCARD_RECORD_SUM + i] = (uint8_t)(TRAPCARD_EMPTY_SUM >> (8 * i));
}

#ifdef __cplusplus
}
#endif

#endif
