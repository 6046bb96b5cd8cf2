/* logodwen.h: the reference node for a host in C (liblogodwen.a).

   A node is a state machine without memory of its own: the host keeps the node's state as 208 bytes, its flash, its memories, its Q-List
   and its event area as runs of bytes, and lends them to each call. There are eight calls, and three entries that need no node:

       logodwen_start      a node starts on a flash
       logodwen_request    a packet from a master came in on a link
       logodwen_requests   a list of such packets, one after the other in one call
       logodwen_build      an event build begins: the slaves of mask 0 are asked for their events
       logodwen_reply      a packet from a slave came in
       logodwen_poll       time went by while a slave is being asked
       logodwen_erase      a bit of an erasure that is going on is done
       logodwen_slow       the slow-control step: the entry of the Q-List whose turn it is, handed out if it is due
       logodwen_fcs        the check sequence of words
       logodwen_capture    whether words are a group's reply, as this or another node may have sent it, and if not, from which word on
       logodwen_salvage    what is readable of a flash with bad sectors, saved in a second one

   A call either does all that it answers, or is refused and changes nothing. Every call ends, gives an answer for any numbers and any
   bytes that it is lent, and touches no byte outside the lent runs: that is proved, so no input has to be kept away from it.

   Around the calls stand helpers in plain C, in the order in which a host needs them: what was answered, taken apart; words in bytes; a
   node in one struct, with the calls on it; the Q-List, read; files and segments, built and read; requests; lists of requests; replies
   and events, read. They are tested, not proved.
   None of them reads or writes past the length that it is given, whatever the bytes say.

   What the host must see to
   - Before the first start the state bytes are zero: zero is no node's state, and every other call refuses it.
   - The runs lent to one call do not overlap. No entry can test that. Apart from that they may stand anywhere; none must be aligned.
   - A run of no bytes may be lent as NULL with length 0.
   - While a group is pending (an answer was LOGODWEN_ASK, or LOGODWEN_SEND_NEXT in it), the words from 0 on of the reply buffer hold what was
     gathered so far: the fragments of the slaves that are done and, where the slave now asked answers in packets, those of its packets
     that have come, from one word behind the fragments on. The host leaves the buffer as it is until the answer LOGODWEN_REPLY comes.
     The reply buffer is zeroed at power-up. A list of requests is not lent it: its replies go to a run of their own.
   - While an event build is pending (an answer was LOGODWEN_ASK_EVENT, or LOGODWEN_SEND_NEXT in it), the same holds for the event area: word
     0 is for the event's number, and the fragments stand from word 1 on. The host leaves the area as it is until the answer is
     LOGODWEN_BUILT or LOGODWEN_NO_EVENT; and an event that was built, until it is read: Read Event hands out what stands there.
   - While a file comes in several packets (an answer was NEXT), the words from 0 on of the area hold what was joined so far, and the host
     leaves the area as it is until the last packet is answered or the file is dropped. Every request is lent the area.
   - The records of the entries listed are the node's: the host reads them and leaves them as they are, and lends the same run to every
     request and every slow-control step. If it changes one, the node goes on with what stands there, and its count of repetitions is the
     host's to answer for. Records behind those listed may hold anything: none is read, and only a Q-List Write stores there.
   - The host keeps the request that made the node ask a slave: it sends it on to each slave that the node asks, from the word that
     the answer tells. The node does not keep it. A slave that is to be sent NEXT gets no word of it, and of an event build there is no
     request to keep: each slave is sent Read Event (logodwen_to_send).

   Threads: the library has no global variables, keeps nothing between calls and allocates nothing. Calls on different runs may go on
   at the same time in different threads; calls that share a run (the state above all) may not.

   Words: a word is two bytes, a word of program memory (PM) four, the low byte first. Of a PM word the low 24 bits count, and a store
   clears the others. The eight calls, logodwen_capture and logodwen_salvage take lengths in bytes (`_len`); bytes that are not a whole word at
   the end of a run, or not a whole record of the Q-List, are ignored, and stay as they are. Only a flash with a byte over is refused: it has
   one of two sizes, to the byte. The helpers count in words (`words`, `count`, `room`), or in records.

   The flash has bench size, 32,768 words, or full size, 262,144: the host picks one at start, and lends as many bytes from then on. Both have
   the same sectors at the same addresses; those of a full flash are eight times as long. Of the calls only start reads all of it. A command
   on a file reads its sector, a File Write those up to the one that it takes, an erasure sets its words, and nothing else touches the flash.

   Times are in ticks of 10 ms and count modulo 2^32. A slave that has not answered 60 ticks after it was asked, or sent
   NEXT, is late. An entry of the Q-List is due once its time has come, for 2^31 ticks, which is 248 days. */
#ifndef LOGODWEN_H
#define LOGODWEN_H

#include <stdbool.h>
#include <stddef.h>
#include <stdint.h>
#include <string.h>

#ifdef __cplusplus
extern "C" {
#endif

/* The version of this interface. It is part of every symbol, so a host that was compiled against another version does not link. */
#define LOGODWEN_VERSION 6

/* Sizes. */
#define LOGODWEN_STATE_BYTES 208u         /* of a node's state, exactly; the layout is at the end of this file */
#define LOGODWEN_FLASH_WORDS 32768u       /* of a flash of bench size, exactly */
#define LOGODWEN_FLASH_BYTES 65536u
#define LOGODWEN_FLASH_FULL_WORDS 262144u /* of one of full size, exactly */
#define LOGODWEN_FLASH_FULL_BYTES 524288u
#define LOGODWEN_REPLY_WORDS 12288u       /* of the reply buffer, at least */
#define LOGODWEN_REPLY_BYTES 24576u
#define LOGODWEN_REPLIES_WORDS 12290u     /* of room that each packet of a list of requests must find for its reply, at least */
#define LOGODWEN_REPLIES_BYTES 24580u
#define LOGODWEN_AREA_WORDS 32768u        /* of the area where the packets of a file join, at least; and of such a file, at most */
#define LOGODWEN_AREA_BYTES 65536u
#define LOGODWEN_LIST_RECORDS 910u        /* of the Q-List, at most; as many as are listed at least */
#define LOGODWEN_RECORD_BYTES 14u
#define LOGODWEN_LIST_BYTES 12740u
#define LOGODWEN_EVENTS_WORDS 12288u      /* of the event area, at least; and of an event, at most */
#define LOGODWEN_EVENTS_BYTES 24576u
#define LOGODWEN_PM_WORDS 8192u           /* of program memory, at most; words of four bytes */
#define LOGODWEN_PM_BYTES 32768u
#define LOGODWEN_DM_WORDS 8192u           /* of data memory, at most */
#define LOGODWEN_DM_BYTES 16384u
#define LOGODWEN_IO_WORDS 4096u           /* of IO registers, at most */
#define LOGODWEN_IO_BYTES 8192u
#define LOGODWEN_REQUEST_WORDS 8192u      /* of a packet of a request that is not answered ERROR, at most */
#define LOGODWEN_REQUEST_BYTES 16384u
#define LOGODWEN_SLAVE_REPLY_WORDS 32768u /* of a packet of a slave's reply, at most */
#define LOGODWEN_SLAVE_REPLY_BYTES 65536u
#define LOGODWEN_FILE_WORDS 4096u         /* of a file that finds a sector of a bench flash, at most */
#define LOGODWEN_FILE_FULL_WORDS 32768u   /* .. of a full one */
#define LOGODWEN_FILE_READ_WORDS 12286u   /* of a file that File Read answers, at most: a longer one is answered ABORT */
#define LOGODWEN_SLAVES 24u
#define LOGODWEN_MASKS 16u
#define LOGODWEN_LATE_TICKS 60u
#define LOGODWEN_EVENT_ASKS 3u            /* times that a slave is asked for its event, at most */

/* The stack that each entry needs, in bytes. They were measured on the archive, over calls that go through all of an entry's work on a flash of
   either size, in a thread with a painted stack (host/test/stack.c), and rounded up; no entry calls itself, so no input makes it more. */
#define LOGODWEN_STACK_START 69632u
#define LOGODWEN_STACK_REQUEST 147456u
#define LOGODWEN_STACK_REQUESTS 147456u
#define LOGODWEN_STACK_REPLY 98304u
#define LOGODWEN_STACK_POLL 4096u
#define LOGODWEN_STACK_BUILD 4096u
#define LOGODWEN_STACK_ERASE 4096u
#define LOGODWEN_STACK_SLOW 4096u
#define LOGODWEN_STACK_FCS 4096u
#define LOGODWEN_STACK_CAPTURE 4096u
#define LOGODWEN_STACK_SALVAGE 135168u

/* The kinds of node. */
#define LOGODWEN_CDP 1u  /* has no slaves */
#define LOGODWEN_CDDC 2u /* forwards to slaves 0 to 23 */

/* BC, the two bits that come with a packet. Bit 1 (BC1) marks the first packet of a block, bit 0 (BC2) the last. A packet with words
   that is a whole block has 3; a File Write may come as a block of several, and so may a slave's reply to a group or in an event build. A
   packet of no words says one of four things by its BC. */
#define LOGODWEN_BC_WHOLE 3u
#define LOGODWEN_BC_FIRST 2u
#define LOGODWEN_BC_MIDDLE 0u
#define LOGODWEN_BC_LAST 1u

#define LOGODWEN_BC_NEXT 0u
#define LOGODWEN_BC_ERROR 1u
#define LOGODWEN_BC_ABORT 2u
#define LOGODWEN_BC_END 3u

/* Why a call is refused. They are tested in this order, each where the call has that input, and the first that holds is answered. */
#define LOGODWEN_DONE 0u
#define LOGODWEN_REFUSED_FLASH_SIZE 1u   /* the flash is not 65,536 or 524,288 bytes, or not of the size used at start */
#define LOGODWEN_REFUSED_REPLY_SIZE 2u   /* the reply buffer is below 12,288 words */
#define LOGODWEN_REFUSED_MEMORY_SIZE 3u  /* PM or DM above 8,192 words, IO above 4,096, or a slave's reply above 32,768 */
#define LOGODWEN_REFUSED_AREA_SIZE 8u    /* the area is below 32,768 words: tested here, between 3 and 4 */
#define LOGODWEN_REFUSED_LIST_SIZE 9u    /* the Q-List is above 910 records, or below the entries listed: tested here, after 8 */
#define LOGODWEN_REFUSED_EVENTS_SIZE 11u /* the event area is below 12,288 words: tested here, after 9 */
#define LOGODWEN_REFUSED_NUMBER 4u       /* a link that is no port; a slave above 23; at start a kind, ports or sub-detector that is none */
#define LOGODWEN_REFUSED_STATE 5u        /* the state bytes are not 208, or not those of a node's state */
#define LOGODWEN_REFUSED_BUSY 6u         /* a request with words, or an event build, while a request or a build is pending */
#define LOGODWEN_REFUSED_UNASKED 7u      /* a reply or a poll with nothing pending, or a reply from a slave that is not being asked */
#define LOGODWEN_REFUSED_OVERRUN 10u     /* of a list of requests, and its only one: a packet, or its three words, runs past the list's end */
#define LOGODWEN_REFUSED_SECOND 12u      /* of a salvage, after 1: the second flash differs in size from the first, or isn't blank */

/* What a call that is not refused answers: see logodwen_answer and those below it. */
#define LOGODWEN_REPLY 1u     /* a reply to the master stands in the reply buffer, or has no words */
#define LOGODWEN_ASK 2u       /* a slave is to be sent the request, from some word on */
#define LOGODWEN_WAITING 3u   /* poll only: the slave is not late yet */
#define LOGODWEN_ACCEPTED 4u  /* capture only: the words are a group's reply */
#define LOGODWEN_BROKEN 5u    /* capture only: they are none, from some word on */
#define LOGODWEN_HANDED 6u    /* slow only: an entry of the Q-List is handed out, for the host to carry out */
#define LOGODWEN_NOTHING 7u   /* slow only: nothing is to be carried out now */
#define LOGODWEN_SEND_NEXT 8u /* reply only: the slave that is being asked is to be sent NEXT, a packet of no words with BC 0, since its
                                 reply comes in packets; what it answers to that is given to the next logodwen_reply */
#define LOGODWEN_ASK_EVENT 9u /* build, reply, poll: a slave is to be sent Read Event, the one word 0x012E with BC 3 */
#define LOGODWEN_NO_EVENT 10u /* reply, poll: the build is over, and no slave had data: there is no event */
#define LOGODWEN_BUILT 11u    /* reply, poll: the build is over, and an event stands in the event area, to be read by Read Event */

/* What came of a sector in a salvage: see logodwen_saved. */
#define LOGODWEN_SAVED_COPIED 1u  /* it is empty or good, and stands in the second flash as it is */
#define LOGODWEN_SAVED_REDUCED 2u /* it is bad: its valid segments stand there, as a good file */
#define LOGODWEN_SAVED_LOST 3u    /* it is bad, and nothing of it is kept: the second flash is empty there */

/* The entries. Names that begin with logodwen6_ are the symbols of the archive; a host writes the short names below. */

/* Starts a node on a flash: reads all of it once, and writes the state. Mask 0 of a CDDC then names all 24 slaves, and a host that wants
   it empty writes zero (logodwen_make_mask_write); its masks 1 to 15, and all masks of a CDP, are 0. No event is unread, and the next one
   is event 1. Answers 0, or why it is refused: 1, 4 or 5; the state bytes then stay as they were.
     kind                  LOGODWEN_CDP or LOGODWEN_CDDC
     ports                 links to masters, 1 to 4
     subdetector           0 to 7
     program_version, subdetector_version
                           two words that the node's status tells
     start_tests           results of the tests at start, bits 11 to 8; other bits are ignored
     clock                 the time now
     flash                 65,536 or 524,288 bytes: every later call is lent as many */
uint32_t logodwen6_start(uint32_t kind, uint32_t ports, uint32_t subdetector,
                         uint16_t program_version, uint16_t subdetector_version, uint16_t start_tests,
                         uint32_t clock,
                         const uint8_t *flash, size_t flash_len,
                         uint8_t *state, size_t state_len);

/* A packet from a master. Refused: 1, 2, 3, 8, 9, 11, 4, 5 or 6. Answers a reply or asks a slave.
     now                   the time now
     link                  the link it came in on, below the ports given at start
     bc                    its BC; bits above bit 1 are ignored
     receive_error         0, or any other number if the receiver noticed an error
     packet                its words; of no words with BC 2, it drops what is that link's: the pending request, the file that comes in
                           several packets. An event build is no link's, and is not dropped
     state, flash, pm, dm, io, area, list, reply
                           the node's own, each changed as the request has it. Of the area only the words of a packet that joins are
                           written, of the list only records by a command on it, of the reply buffer the words of a reply that has some.
     events                the event area, read by Read Event and by nothing else
   A File Write whose file has no room in one packet comes in several, from one link: the first with BC 2, whose word 0 is 0x452E; others
   with BC 0, the last with BC 1, which have words of the file alone. Each but the last is answered NEXT, and nothing is tested of the
   words that it brings; the last is answered as a File Write of them all. At most one file comes so at a time, and requests of other
   links go on meanwhile. It is dropped, and nothing of it stored, where it gets longer than 32,768 words (ABORT), by a packet with words
   and BC 2 or 3 from its link (ERROR), or by one of no words and BC 2 (END). */
uint64_t logodwen6_request(uint32_t now, uint32_t link, uint32_t bc, uint32_t receive_error,
                           const uint8_t *packet, size_t packet_len,
                           uint8_t *state, size_t state_len,
                           uint8_t *flash, size_t flash_len,
                           uint8_t *pm, size_t pm_len,
                           uint8_t *dm, size_t dm_len,
                           uint8_t *io, size_t io_len,
                           uint8_t *area, size_t area_len,
                           uint8_t *list, size_t list_len,
                           const uint8_t *events, size_t events_len,
                           uint8_t *reply, size_t reply_len);

/* A list of packets from masters, in one call: what logodwen_request does with each, in their order, at one time and without receive errors;
   each reply goes behind the one before. Refused: 10 alone, where a packet, or the three words before one, runs past the end of the list,
   wherever that is: the list is walked to its end first, and nothing is done. Else it stops before the first packet that
     - would ask a slave, or
     - would be refused by itself, by 1, 2, 3, 8, 9, 11, 4, 5 or 6, or
     - has a BC above 3, or
     - finds fewer than 12,290 words of room behind the replies before it,
   and answers how many were done (logodwen_done): all of them, or those before that one. State, runs and replies are as the calls one by one
   leave them, and none is changed by the packet at which it stops. So a state, or a run, that refuses every packet gives 0 done and no
   refusal; what it is, logodwen_request says of that packet. An empty list is done, with 0.
     now                   the time now, of all packets
     packets               the packets in a row, each behind three words: its link, its BC, and how many words it has (logodwen_packets_add)
     state, flash, pm, dm, io, area, list, events
                           the node's own, as above
     replies               the replies in a row, each behind two words: its BC, and how many words it has (logodwen_read_reply). Words past
                           the last one stay as they are */
uint64_t logodwen6_requests(uint32_t now,
                            const uint8_t *packets, size_t packets_len,
                            uint8_t *state, size_t state_len,
                            uint8_t *flash, size_t flash_len,
                            uint8_t *pm, size_t pm_len,
                            uint8_t *dm, size_t dm_len,
                            uint8_t *io, size_t io_len,
                            uint8_t *area, size_t area_len,
                            uint8_t *list, size_t list_len,
                            const uint8_t *events, size_t events_len,
                            uint8_t *replies, size_t replies_len);

/* Begins an event build: the slaves of mask 0 are asked for Read Event, from the lowest on, and what they answer is put together in the event
   area. Refused: 11, 5 or 6. Answers LOGODWEN_ASK_EVENT with the lowest slave; or a reply, ABORT, and nothing is changed: of a CDP, where
   mask 0 is empty, or while the event before is unread.
     now                   the time now: the slave has 60 ticks from then on
     events                the event area, of which the call itself writes no byte
   The build goes on by logodwen_reply and logodwen_poll, as a group does, and no request with words is taken until it is over. A slave that
   answers END is asked again at once, three times in all. The build ends with LOGODWEN_NO_EVENT where no slave had data; the next event then has
   the same number. Else with LOGODWEN_BUILT: the event is the first words of the event area (logodwen_words; logodwen_read_event), to be
   handed out to the first Read Event that asks for it; until then no other build begins. Nothing drops a build but an accepted start. */
uint64_t logodwen6_build(uint32_t now,
                         uint8_t *state, size_t state_len,
                         const uint8_t *events, size_t events_len);

/* A packet from the slave that is being asked. Refused: 2, 3, 11, 4, 5 or 7. Answers a reply, asks the next slave, or has this one sent NEXT;
   in an event build it asks the next slave for its event, or this one again, or says how the build ended.
     slave                 the slave it came from, 0 to 23
     bc, receive_error     as above
     rx_status, rx_address two words of the receiver, told in the group's reply, or in the event, where something was wrong
     events, reply         the event area, written in a build alone, and the reply buffer, written otherwise alone. Both are lent to every reply,
                           whatever is pending, and each is refused where it is too short
   In a group, and in a build, a slave's reply may come in several packets: the first with BC 2, others with BC 0, the last with BC 1. Each but
   the last is answered LOGODWEN_SEND_NEXT, and its words stand behind the fragments; the slave is sent NEXT, and has 60 ticks anew.
   The last is answered as if all the words had come in one, with the FCS at their very end. Where something is wrong with a packet, the
   reply is over: the fragment says what it was (LOGODWEN_CODE_..), and the next slave is asked. What had come of it stays in the buffer and
   counts as nothing. A single slave's packet goes to the master as it is, whatever its BC, and the request is over. */
uint64_t logodwen6_reply(uint32_t now, uint32_t slave, uint32_t bc, uint32_t receive_error,
                         uint16_t rx_status, uint16_t rx_address,
                         const uint8_t *packet, size_t packet_len,
                         uint8_t *state, size_t state_len,
                         uint8_t *events, size_t events_len,
                         uint8_t *reply, size_t reply_len);

/* Time went by while a slave is being asked. Refused: 2, 11, 5 or 7. Answers that the node waits; or the slave is late, after NEXT too, and it
   answers what logodwen_reply does of a packet that comes too late; so in an event build it asks the next slave, or says how the build ended. */
uint64_t logodwen6_poll(uint32_t now,
                        uint8_t *state, size_t state_len,
                        uint8_t *events, size_t events_len,
                        uint8_t *reply, size_t reply_len);

/* Goes on with an erasure that a request began: sets up to `budget` words of the sector to FFFF, from its low end. Refused: 1 or 5.
   Answers how many words it set (logodwen_words); 0 where the budget is 0 or nothing is being erased. */
uint64_t logodwen6_erase(uint64_t budget,
                         uint8_t *state, size_t state_len,
                         uint8_t *flash, size_t flash_len);

/* The slow-control step: looks at the entry of the Q-List whose turn it is, and at no other. Refused: 9 or 5. If that entry is due and has
   repetitions left, answers LOGODWEN_HANDED with its place (logodwen_place), for the host to carry out; it then has one repetition less, and
   is due one frequency later than it was. Else, and where none is listed, answers LOGODWEN_NOTHING. Either way the turn moves on to the next
   entry, after the last to the first. So a host calls it once in each pass of its loop, or as often as there are entries to see them all:
   no call takes longer for a longer list.
     now                   the time now. An entry is due where now less its due time, modulo 2^32, is below 2^31
     list                  the records, of which at most the 14 bytes of that entry are written */
uint64_t logodwen6_slow(uint32_t now,
                        uint8_t *state, size_t state_len,
                        uint8_t *list, size_t list_len);

/* The check sequence (FCS) of the words of bytes: polynomial 0x1021, start 0xFFFF, high byte of each word first. A last byte alone is
   ignored. */
uint16_t logodwen6_fcs(const uint8_t *bytes, size_t len);

/* Whether words that some node sent are a group's reply, by the rules by which this node assembles one. It is never refused, changes
   nothing, and needs no node. Answers LOGODWEN_ACCEPTED: answers of the slaves exist from which this node assembles just these words, and
   they split in only one way into a fragment for each slave (logodwen_read_fragment). Or LOGODWEN_BROKEN, with the place of the first word
   that breaks the rules (logodwen_place): the words before it begin some group's reply for this mask, with it they begin none. A reply that
   is cut short breaks at its own length, where the next word should stand. So a place is at most that, and at most 12,288.
     mask                  the slaves that were asked, bit s for slave s. An empty one, or one with a bit above 23, has no reply: broken at 0
     words                 the reply, status word and FCS included. No words are broken at 0: where every slave answers the same without
                           words, that answer is the group's reply, and it has no fragments */
uint64_t logodwen6_capture(uint32_t mask, const uint8_t *words, size_t words_len);

/* Saves what is readable of a flash with bad sectors in a second one, of which every sector is empty or good then. It needs no node. Refused:
   1 or 12; then no byte is written. Answers what came of each of the sectors 3 to 10 (logodwen_saved) and how many segments of it are kept
   (logodwen_kept):
     - one that is empty or good goes over as it is (LOGODWEN_SAVED_COPIED);
     - a bad one whose first word can begin a file, and whose 1 to 14 segments can be followed by their headers inside the sector, none with
       an odd length in PM, keeps those that are valid, in their order, under the same first word but for their number, with FFFF behind them
       (LOGODWEN_SAVED_REDUCED). All can be: what was bad then stood behind the file;
     - any other, and one that has no valid segment, is left out: the sector stays empty (LOGODWEN_SAVED_LOST).
   Names go over as they are, also where several sectors have one. A salvage of the second flash changes nothing more: all is copied.
     first                 65,536 or 524,288 bytes, which are only read
     second                as many, all FF; those of sectors 0 to 2 stay so. It overlaps `first` nowhere: a flash is not saved into itself */
uint64_t logodwen6_salvage(const uint8_t *first, size_t first_len, uint8_t *second, size_t second_len);

#define logodwen_start logodwen6_start
#define logodwen_request logodwen6_request
#define logodwen_requests logodwen6_requests
#define logodwen_build logodwen6_build
#define logodwen_reply logodwen6_reply
#define logodwen_poll logodwen6_poll
#define logodwen_erase logodwen6_erase
#define logodwen_slow logodwen6_slow
#define logodwen_capture logodwen6_capture
#define logodwen_salvage logodwen6_salvage

/* The same of so many words. It ends a segment's body and every reply that has words. */
static inline uint16_t logodwen_fcs(const uint8_t *bytes, size_t words) { return logodwen6_fcs(bytes, 2 * words); }

/* ---- What was answered, taken apart. A call that is refused has no other part. What logodwen_salvage answers has a form of its own: its
   refusal is read as any other, and the rest by logodwen_saved and logodwen_kept alone, which stand below, with the sectors. ---- */

/* What a part that an answer doesn't have is: no BC, no slave and no place. */
#define LOGODWEN_NONE 0xFFFFFFFFu

/* Why the call was refused, or LOGODWEN_DONE. */
static inline unsigned logodwen_refusal(uint64_t answered) { return (unsigned)(answered & 0xFFu); }

/* LOGODWEN_REPLY, LOGODWEN_ASK, LOGODWEN_SEND_NEXT or LOGODWEN_WAITING, in an event build LOGODWEN_ASK_EVENT, LOGODWEN_NO_EVENT or
   LOGODWEN_BUILT, of logodwen_slow LOGODWEN_HANDED or LOGODWEN_NOTHING, of logodwen_capture LOGODWEN_ACCEPTED or LOGODWEN_BROKEN; 0 of a
   call that was refused, of logodwen_requests and of logodwen_erase. */
static inline unsigned logodwen_answer(uint64_t answered) { return (unsigned)(answered >> 8 & 0xFFu); }

/* Of LOGODWEN_REPLY: its BC. Else LOGODWEN_NONE. */
static inline unsigned logodwen_bc(uint64_t answered) {
    return logodwen_answer(answered) == LOGODWEN_REPLY ? (unsigned)(answered >> 16 & 0xFFu) : LOGODWEN_NONE;
}

/* Whether the answer has a place, where others have a count of words. For the two below. */
static inline bool logodwen_has_place(uint64_t answered) {
    return logodwen_answer(answered) == LOGODWEN_BROKEN || logodwen_answer(answered) == LOGODWEN_HANDED;
}

/* Of LOGODWEN_REPLY: how many words of the reply buffer it has, from word 0 on. Of LOGODWEN_BUILT: how many words of the event area the event
   has. Of logodwen_erase: how many words were set. Else 0, but for logodwen_requests, whose number is logodwen_done. */
static inline uint32_t logodwen_words(uint64_t answered) { return logodwen_has_place(answered) ? 0 : (uint32_t)(answered >> 32); }

/* Of logodwen_requests: how many packets of the list were done; 0 where it was refused. */
static inline uint32_t logodwen_done(uint64_t answered) { return (uint32_t)(answered >> 32); }

/* Of LOGODWEN_BROKEN: the place of the first word that breaks the rules. Of LOGODWEN_HANDED: the place of the entry in the Q-List, which
   logodwen_read_record reads. Counted from 0. Else LOGODWEN_NONE. */
static inline uint32_t logodwen_place(uint64_t answered) { return logodwen_has_place(answered) ? (uint32_t)(answered >> 32) : LOGODWEN_NONE; }

/* Of LOGODWEN_ASK, LOGODWEN_ASK_EVENT and LOGODWEN_SEND_NEXT: the slave. Else LOGODWEN_NONE. */
static inline unsigned logodwen_slave(uint64_t answered) {
    unsigned answer = logodwen_answer(answered);
    bool has_slave = answer == LOGODWEN_ASK || answer == LOGODWEN_ASK_EVENT || answer == LOGODWEN_SEND_NEXT;
    return has_slave ? (unsigned)(answered >> 16 & 0xFFu) : LOGODWEN_NONE;
}

/* Of LOGODWEN_ASK: the word of the request from which it is sent on, 1 or 2. Else LOGODWEN_NONE. */
static inline unsigned logodwen_from(uint64_t answered) {
    return logodwen_answer(answered) == LOGODWEN_ASK ? (unsigned)(answered >> 24 & 0xFFu) : LOGODWEN_NONE;
}

/* A packet to be sent, or a reply of a list: its words and its BC. */
struct logodwen_packet {
    const uint8_t *bytes; /* NULL where it has no words */
    size_t words;
    uint32_t bc;
};

/* What the slave is to be sent: of LOGODWEN_ASK the request that the host keeps, from the word on that the answer tells; of
   LOGODWEN_ASK_EVENT the word of Read Event; of LOGODWEN_SEND_NEXT no words, with BC 0. False of any other answer, and of a request with no
   word from there on, which is not the one that made the node ask; `packet` is left then. So the loop over a group is one, however its
   slaves answer (examples/group.c), and over an event build the same, with NULL and 0 for the request (examples/event.c):

       while (logodwen_to_send(answered, request, words, &packet)) {
           .. send `packet` to slave logodwen_slave(answered)
           .. answered = what logodwen_reply answers to its packet, or logodwen_poll where it no longer says LOGODWEN_WAITING
       } */
static inline bool logodwen_to_send(uint64_t answered, const uint8_t *request, size_t words, struct logodwen_packet *packet) {
    static const uint8_t read_event[2] = {0x2E, 0x01};
    const struct logodwen_packet next = {NULL, 0, LOGODWEN_BC_NEXT}, event = {read_event, 1, LOGODWEN_BC_WHOLE};
    size_t from = logodwen_from(answered);
    if (logodwen_answer(answered) == LOGODWEN_SEND_NEXT || logodwen_answer(answered) == LOGODWEN_ASK_EVENT) {
        *packet = logodwen_answer(answered) == LOGODWEN_SEND_NEXT ? next : event;
        return true;
    }
    if (logodwen_answer(answered) != LOGODWEN_ASK || from >= words) return false;
    packet->bytes = request + 2 * from;
    packet->words = words - from;
    packet->bc = LOGODWEN_BC_WHOLE;
    return true;
}

/* A refusal as text. */
static inline const char *logodwen_refusal_text(unsigned refusal) {
    switch (refusal) {
    case LOGODWEN_DONE: return "done";
    case LOGODWEN_REFUSED_FLASH_SIZE: return "1: the flash is not 65,536 or 524,288 bytes, or not of the size used at start";
    case LOGODWEN_REFUSED_REPLY_SIZE: return "2: the reply buffer is below 12,288 words";
    case LOGODWEN_REFUSED_MEMORY_SIZE: return "3: PM, DM, IO or a slave's reply is too long";
    case LOGODWEN_REFUSED_NUMBER: return "4: a link, slave, kind, port count or sub-detector that is none";
    case LOGODWEN_REFUSED_STATE: return "5: the state bytes are not those of a node's state";
    case LOGODWEN_REFUSED_BUSY: return "6: a request or a build while one is pending";
    case LOGODWEN_REFUSED_UNASKED: return "7: nothing is pending, or another slave is being asked";
    case LOGODWEN_REFUSED_AREA_SIZE: return "8: the area is below 32,768 words";
    case LOGODWEN_REFUSED_LIST_SIZE: return "9: the Q-List is above 910 records, or has fewer than are listed";
    case LOGODWEN_REFUSED_OVERRUN: return "10: a packet, or its three words, runs past the end of the list";
    case LOGODWEN_REFUSED_EVENTS_SIZE: return "11: the event area is below 12,288 words";
    case LOGODWEN_REFUSED_SECOND: return "12: the second flash differs in size from the first, or isn't blank";
    default: return "not a refusal";
    }
}

/* Whether the answer is a reply to the master that says NEXT: the node waits for the next packet of a file. */
static inline bool logodwen_is_next(uint64_t answered) {
    return logodwen_bc(answered) == LOGODWEN_BC_NEXT && logodwen_words(answered) == 0;
}

/* A packet's name: "DATA" where it has words, else what it says by its BC. */
static inline const char *logodwen_packet_text(const struct logodwen_packet *packet) {
    if (packet->words != 0) return "DATA";
    switch (packet->bc) {
    case LOGODWEN_BC_NEXT: return "NEXT";
    case LOGODWEN_BC_ERROR: return "ERROR";
    case LOGODWEN_BC_ABORT: return "ABORT";
    default: return "END";
    }
}

/* A reply's name, of an answer that is LOGODWEN_REPLY. */
static inline const char *logodwen_reply_text(uint64_t answered) {
    const struct logodwen_packet reply = {NULL, logodwen_words(answered), logodwen_bc(answered)};
    return logodwen_answer(answered) == LOGODWEN_REPLY ? logodwen_packet_text(&reply) : "not a reply";
}

/* ---- Words in bytes. ---- */

static inline uint16_t logodwen_get(const uint8_t *bytes, size_t word) {
    return (uint16_t)(bytes[2 * word] | bytes[2 * word + 1] << 8);
}

static inline void logodwen_put(uint8_t *bytes, size_t word, uint16_t value) {
    bytes[2 * word] = (uint8_t)(value & 0xFFu);
    bytes[2 * word + 1] = (uint8_t)(value >> 8);
}

/* A PM word, of four bytes. */
static inline uint32_t logodwen_get_pm(const uint8_t *bytes, size_t word) {
    return logodwen_get(bytes, 2 * word) | (uint32_t)logodwen_get(bytes, 2 * word + 1) << 16;
}

static inline void logodwen_put_pm(uint8_t *bytes, size_t word, uint32_t value) {
    logodwen_put(bytes, 2 * word, (uint16_t)(value & 0xFFFFu));
    logodwen_put(bytes, 2 * word + 1, (uint16_t)(value >> 16));
}

/* ---- A node in one struct, with all that is lent to it, and the calls on it. ---- */

/* All zero but for its flash it is a node before its first start, without PM, DM and IO. The host lends its own bytes for the flash, of
   either size, and for such memories as it has:

       static uint8_t flash[LOGODWEN_FLASH_BYTES]; // or LOGODWEN_FLASH_FULL_BYTES
       static struct logodwen_node node = {.flash = flash, .flash_len = sizeof flash};

   A copy of the struct lends the same flash, not a copy of it. */
struct logodwen_node {
    uint8_t state[LOGODWEN_STATE_BYTES], area[LOGODWEN_AREA_BYTES], list[LOGODWEN_LIST_BYTES], events[LOGODWEN_EVENTS_BYTES];
    uint8_t reply[LOGODWEN_REPLY_BYTES];
    uint8_t *flash, *pm, *dm, *io;
    size_t flash_len, pm_len, dm_len, io_len; /* in bytes */
};

/* What is given at start: see logodwen6_start. */
struct logodwen_given {
    uint32_t kind, ports, subdetector;
    uint16_t program_version, subdetector_version, start_tests;
    uint32_t clock;
};

/* A flash as it comes: every bit set, so every sector empty. The node is to be started on it. */
static inline void logodwen_node_blank(struct logodwen_node *node) {
    if (node->flash_len != 0) memset(node->flash, 0xFF, node->flash_len);
}

static inline uint32_t logodwen_node_start(struct logodwen_node *node, const struct logodwen_given *given) {
    return logodwen_start(given->kind, given->ports, given->subdetector, given->program_version, given->subdetector_version,
                          given->start_tests, given->clock, node->flash, node->flash_len, node->state, sizeof node->state);
}

/* A packet with all that the receiver said of it. */
static inline uint64_t logodwen_node_request(struct logodwen_node *node, uint32_t now, uint32_t link, uint32_t bc,
                                             uint32_t receive_error, const uint8_t *packet, size_t words) {
    return logodwen_request(now, link, bc, receive_error, packet, 2 * words, node->state, sizeof node->state, node->flash,
                            node->flash_len, node->pm, node->pm_len, node->dm, node->dm_len, node->io, node->io_len, node->area,
                            sizeof node->area, node->list, sizeof node->list, node->events, sizeof node->events, node->reply,
                            sizeof node->reply);
}

/* A request that came in whole and without errors. */
static inline uint64_t logodwen_node_send(struct logodwen_node *node, uint32_t now, uint32_t link, const uint8_t *packet,
                                          size_t words) {
    return logodwen_node_request(node, now, link, LOGODWEN_BC_WHOLE, 0, packet, words);
}

/* A request of no words that drops what is this link's: the pending request, the file that comes in packets. Answers END; ABORT where it
   has neither. No link drops an event build. */
static inline uint64_t logodwen_node_drop(struct logodwen_node *node, uint32_t now, uint32_t link) {
    return logodwen_node_request(node, now, link, LOGODWEN_BC_ABORT, 0, NULL, 0);
}

static inline uint64_t logodwen_node_build(struct logodwen_node *node, uint32_t now) {
    return logodwen_build(now, node->state, sizeof node->state, node->events, sizeof node->events);
}

static inline uint64_t logodwen_node_reply(struct logodwen_node *node, uint32_t now, uint32_t slave, uint32_t bc,
                                           uint32_t receive_error, uint16_t rx_status, uint16_t rx_address, const uint8_t *packet,
                                           size_t words) {
    return logodwen_reply(now, slave, bc, receive_error, rx_status, rx_address, packet, 2 * words, node->state, sizeof node->state,
                          node->events, sizeof node->events, node->reply, sizeof node->reply);
}

static inline uint64_t logodwen_node_poll(struct logodwen_node *node, uint32_t now) {
    return logodwen_poll(now, node->state, sizeof node->state, node->events, sizeof node->events, node->reply, sizeof node->reply);
}

static inline uint64_t logodwen_node_erase(struct logodwen_node *node, uint64_t budget) {
    return logodwen_erase(budget, node->state, sizeof node->state, node->flash, node->flash_len);
}

static inline uint64_t logodwen_node_slow(struct logodwen_node *node, uint32_t now) {
    return logodwen_slow(now, node->state, sizeof node->state, node->list, sizeof node->list);
}

/* ---- The Q-List: entries that the slow-control step hands out in turn, each so many times, one frequency apart.

   An entry is written by Q-List Write (logodwen_make_list_write), and its ID is its place, counted from 0. It is first due one frequency after
   the write. What it asks for, by its header and its two parameters, is the host's to carry out: the node tests of a header that it is not
   delayed, hands it out as it was written, and sets no bit of it. ---- */

/* The low byte of an entry's header word. Bit 7, 'executed', and bits 6-4, the attribute, are as they were written. */
#define LOGODWEN_RECORD_FIRST 0x08u /* first of its group: without it an entry is delayed, and a Q-List Write of it is answered ABORT */
#define LOGODWEN_RECORD_LAST 0x04u  /* last of its group */
#define LOGODWEN_RECORD_LECROY 0u   /* its type, bits 1-0: a LeCroy command, with the bus as attribute */
#define LOGODWEN_RECORD_AMSWIRE 1u
#define LOGODWEN_RECORD_MEMORY 2u
#define LOGODWEN_RECORD_IO 3u

#define LOGODWEN_FREQUENCY_MOST 0xFFFFFFu /* ticks: 46 hours; the least is 1 */

struct logodwen_record {
    unsigned header;        /* its low byte: LOGODWEN_RECORD_.. */
    unsigned repetitions;   /* left; 0 to FFFF */
    uint32_t frequency;     /* in ticks from one time to the next: the header's high byte above the frequency word */
    unsigned first, second; /* its parameters */
    uint32_t due;           /* the time from which on it is due */
};

/* Reads five words that say an entry, without its due time. For those below. */
static inline void logodwen_get_record(const uint8_t *bytes, struct logodwen_record *record) {
    record->header = bytes[0];
    record->repetitions = logodwen_get(bytes, 1);
    record->frequency = (uint32_t)bytes[1] << 16 | logodwen_get(bytes, 2);
    record->first = logodwen_get(bytes, 3);
    record->second = logodwen_get(bytes, 4);
    record->due = 0;
}

/* Reads the record at a place of a list of so many; false where there is no such place, and then leaves `record`. Of what a step answered it
   reads the entry that was handed out, as it is since then, and is false where none was:

       uint64_t answered = logodwen_node_slow(&node, now);
       if (logodwen_read_record(node.list, LOGODWEN_LIST_RECORDS, logodwen_place(answered), &record)) .. carry it out */
static inline bool logodwen_read_record(const uint8_t *list, size_t records, size_t place, struct logodwen_record *record) {
    if (place >= records) return false;
    const uint8_t *bytes = list + LOGODWEN_RECORD_BYTES * place;
    logodwen_get_record(bytes, record);
    record->due = logodwen_get_pm(bytes + 10, 0);
    return true;
}

/* ---- Sectors. The flash has the file sectors 3 to 10; the words before them never change. Sector 3 has a sixteenth of the flash's words,
   each other one an eighth: at bench size 2,048 and 4,096, at full size 16,384 and 32,768. ---- */

#define LOGODWEN_SECTOR_FIRST 3u
#define LOGODWEN_SECTOR_LAST 10u
#define LOGODWEN_SECTORS 8u

static inline bool logodwen_is_sector(unsigned sector) { return LOGODWEN_SECTOR_FIRST <= sector && sector <= LOGODWEN_SECTOR_LAST; }

/* Whether a flash may have so many bytes. */
static inline bool logodwen_is_flash_len(size_t flash_len) {
    return flash_len == LOGODWEN_FLASH_BYTES || flash_len == LOGODWEN_FLASH_FULL_BYTES;
}

/* How many words a sector has, and at which word of the flash it begins, in a flash of so many bytes, as it is lent; 0 of a sector that is
   none, and of a flash that may not have so many. */
static inline size_t logodwen_sector_words(size_t flash_len, unsigned sector) {
    if (!logodwen_is_flash_len(flash_len) || !logodwen_is_sector(sector)) return 0;
    return flash_len / 2 / (sector == LOGODWEN_SECTOR_FIRST ? 16 : 8);
}

static inline size_t logodwen_sector_start(size_t flash_len, unsigned sector) {
    size_t words = logodwen_sector_words(flash_len, sector);
    return sector == LOGODWEN_SECTOR_FIRST ? words : words * (sector - LOGODWEN_SECTOR_FIRST);
}

/* Its address in Summary and Erase, the same in both sizes; 0 of a number that is none. */
static inline unsigned logodwen_sector_address(unsigned sector) {
    return !logodwen_is_sector(sector) ? 0 : sector == LOGODWEN_SECTOR_FIRST ? 0x0200u : 0x0400u * (sector - LOGODWEN_SECTOR_FIRST);
}

/* What logodwen_salvage answers of a sector, in six bits. For the two below. */
static inline unsigned logodwen_salvaged(uint64_t answered, unsigned sector) {
    return logodwen_is_sector(sector) ? (unsigned)(answered >> (8 + 6 * (sector - LOGODWEN_SECTOR_FIRST)) & 63u) : 0;
}

/* Of logodwen_salvage: what came of a sector, LOGODWEN_SAVED_COPIED, LOGODWEN_SAVED_REDUCED or LOGODWEN_SAVED_LOST; and how many of its
   segments the second flash has. 0 of a number that is no sector's, and where it was refused. */
static inline unsigned logodwen_saved(uint64_t answered, unsigned sector) { return logodwen_salvaged(answered, sector) >> 4; }
static inline unsigned logodwen_kept(uint64_t answered, unsigned sector) { return logodwen_salvaged(answered, sector) & 15u; }

/* What came of a sector as text. */
static inline const char *logodwen_saved_text(unsigned saved) {
    switch (saved) {
    case LOGODWEN_SAVED_COPIED: return "copied";
    case LOGODWEN_SAVED_REDUCED: return "reduced";
    case LOGODWEN_SAVED_LOST: return "lost";
    default: return "not told";
    }
}

/* ---- Files and segments.

   A file is a header word and 1 to 14 segments. A segment is a run of memory words for PM or DM, or pairs of register and value for IO:
   two header words and a body, which ends with its FCS. A body has DM and IO words as they are, and PM words of three bytes packed:
   AABBCC DDEEFF stand as AABB CCDD EEFF, and a zero byte stands before the FCS. ---- */

#define LOGODWEN_TYPE_PROGRAM 0u
#define LOGODWEN_TYPE_DATA 1u

#define LOGODWEN_ATTRIBUTE_PLAIN 3u /* 0 and 1 are plain too, and can't be set default */
#define LOGODWEN_ATTRIBUTE_DEFAULT 2u

#define LOGODWEN_SEGMENTS 14u /* of a file, at most */

/* The memories, by their bits in a segment's first word; IO is 3 too. */
#define LOGODWEN_PM 0u
#define LOGODWEN_DM 1u
#define LOGODWEN_IO 2u

#define LOGODWEN_IO_WRITE 0x1000u /* set in a pair's first word, beside the register's number, writes the register */

/* A file's header word. */
struct logodwen_header {
    unsigned type, attribute, name, segments; /* attribute: its two bits */
};

/* Takes a header word apart. Answers whether it can begin a file: type 0 or 1, 1 to 14 segments. */
static inline bool logodwen_read_header(unsigned word, struct logodwen_header *header) {
    header->type = word >> 14 & 3u;
    header->attribute = word >> 12 & 3u;
    header->name = word >> 4 & 0xFFu;
    header->segments = word & 15u;
    return header->type <= LOGODWEN_TYPE_DATA && 1 <= header->segments && header->segments <= LOGODWEN_SEGMENTS;
}

static inline uint16_t logodwen_header_word(const struct logodwen_header *header) {
    return (uint16_t)((header->type & 3u) << 14 | (header->attribute & 3u) << 12 | (header->name & 0xFFu) << 4 | (header->segments & 15u));
}

/* A segment that stands in some words. */
struct logodwen_segment {
    unsigned memory;     /* LOGODWEN_PM, LOGODWEN_DM or LOGODWEN_IO */
    unsigned page;       /* 0, 4 or 5; of IO 0 */
    unsigned address;    /* 0 to 3FFF; of IO 0 */
    size_t count;        /* of its memory words: see logodwen_segment_word */
    const uint8_t *body; /* its packed words, in the words that it was read from */
    size_t body_words;   /* with the FCS */
};

/* The page of its two bits: 00 is page 0, 10 page 4, 11 page 5, and 01 is none. And its bits, 1 for a number that is no page. */
static inline unsigned logodwen_page_of(unsigned bits) { return bits == 0 ? 0 : bits == 2 ? 4 : bits == 3 ? 5 : LOGODWEN_NONE; }
static inline unsigned logodwen_page_bits(unsigned page) { return page == 0 ? 0 : page == 4 ? 2 : page == 5 ? 3 : 1; }

/* Whether a segment of that memory may have so many memory words: PM an odd number, DM any but 0, IO pairs. With the FCS they are at
   most 3FFF, which is odd: so PM has one less. */
static inline bool logodwen_permits(unsigned memory, size_t count) {
    return memory == LOGODWEN_PM   ? count % 2 == 1 && count < 0x3FFEu
           : memory == LOGODWEN_DM ? 1 <= count && count <= 0x3FFEu
                                   : 2 <= count && count <= 0x3FFEu && count % 2 == 0;
}

/* The packed words that memory words take, with the FCS. */
static inline size_t logodwen_body_words(unsigned memory, size_t count) { return memory == LOGODWEN_PM ? (count + 1) / 2 * 3 : count + 1; }

/* A byte of a body, the high byte of each word first. */
static inline size_t logodwen_body_byte(size_t at) { return at ^ 1u; }

/* The valid segment at a place of some words: answers the place past it, or 0 where there is none, and then leaves `segment`. */
static inline size_t logodwen_read_segment(const uint8_t *words, size_t count, size_t at, struct logodwen_segment *segment) {
    if (count < 2 || at > count - 2) return 0;
    unsigned first = logodwen_get(words, at), second = logodwen_get(words, at + 1), length = first & 0x3FFFu;
    struct logodwen_segment found = {first >> 14 > LOGODWEN_IO ? LOGODWEN_IO : first >> 14, 0, 0, 0, words + 2 * at + 4, 0};
    if (length == 0 || !logodwen_permits(found.memory, length - 1)) return 0;
    if (found.memory != LOGODWEN_IO) {
        found.page = logodwen_page_of(second >> 14);
        found.address = second & 0x3FFFu;
        if (found.page == LOGODWEN_NONE) return 0;
    }
    found.count = length - 1;
    found.body_words = logodwen_body_words(found.memory, found.count);
    if (found.body_words > count - at - 2) return 0;
    if (found.memory == LOGODWEN_PM && found.body[logodwen_body_byte(3 * found.count)] != 0) return 0;
    if (logodwen_get(found.body, found.body_words - 1) != logodwen_fcs(found.body, found.body_words - 1)) return 0;
    *segment = found;
    return at + 2 + found.body_words;
}

/* A memory word of a segment, unpacked; 0 past its last. */
static inline uint32_t logodwen_segment_word(const struct logodwen_segment *segment, size_t i) {
    if (i >= segment->count) return 0;
    if (segment->memory != LOGODWEN_PM) return logodwen_get(segment->body, i);
    return (uint32_t)segment->body[logodwen_body_byte(3 * i)] << 16 | (uint32_t)segment->body[logodwen_body_byte(3 * i + 1)] << 8
           | segment->body[logodwen_body_byte(3 * i + 2)];
}

/* The length of the valid file that some words begin with, and its header; 0 where there is none. What stands behind it is not looked at; in
   a sector every word there must be FFFF, or the sector is bad. The file's segments stand from word 1 on:

       for (size_t at = 1; at < length; ) { at = logodwen_read_segment(words, length, at, &segment); .. } */
static inline size_t logodwen_read_file(const uint8_t *words, size_t count, struct logodwen_header *header) {
    struct logodwen_segment segment;
    size_t at = 1;
    if (count == 0 || !logodwen_read_header(logodwen_get(words, 0), header)) return 0;
    for (unsigned left = header->segments; left > 0 && at != 0; left--) at = logodwen_read_segment(words, count, at, &segment);
    return at;
}

/* Lays the first words of a segment: its header. For the builders below. */
static inline bool logodwen_begin_segment(uint8_t *to, size_t room, unsigned memory, unsigned page, unsigned address, size_t count) {
    if (!logodwen_permits(memory, count) || logodwen_page_bits(page) == 1 || address > 0x3FFFu) return false;
    if (room < 2 + logodwen_body_words(memory, count)) return false;
    logodwen_put(to, 0, (uint16_t)(memory << 14 | (unsigned)(count + 1)));
    logodwen_put(to, 1, (uint16_t)(logodwen_page_bits(page) << 14 | address));
    return true;
}

/* Lays the last word of a segment, its FCS, and answers how many words the segment has. */
static inline size_t logodwen_end_segment(uint8_t *to, unsigned memory, size_t count) {
    size_t words = 2 + logodwen_body_words(memory, count);
    logodwen_put(to, words - 1, logodwen_fcs(to + 4, words - 3));
    return words;
}

/* Lay a segment, and answer how many words it has; 0 where there is no room for it, or it would not be one: then nothing is laid. The
   page is 0, 4 or 5, the address at most 3FFF. PM takes an odd count of words, of which the low 24 bits count; IO takes pairs, each a
   register, with LOGODWEN_IO_WRITE to write it, and a value. */
static inline size_t logodwen_make_pm(uint8_t *to, size_t room, unsigned page, unsigned address, const uint32_t *words, size_t count) {
    if (!logodwen_begin_segment(to, room, LOGODWEN_PM, page, address, count)) return 0;
    for (size_t i = 0; i < 3 * count; i++) to[4 + logodwen_body_byte(i)] = (uint8_t)(words[i / 3] >> (16 - i % 3 * 8) & 0xFFu);
    to[4 + logodwen_body_byte(3 * count)] = 0;
    return logodwen_end_segment(to, LOGODWEN_PM, count);
}

static inline size_t logodwen_make_dm(uint8_t *to, size_t room, unsigned page, unsigned address, const uint16_t *words, size_t count) {
    if (!logodwen_begin_segment(to, room, LOGODWEN_DM, page, address, count)) return 0;
    for (size_t i = 0; i < count; i++) logodwen_put(to, 2 + i, words[i]);
    return logodwen_end_segment(to, LOGODWEN_DM, count);
}

static inline size_t logodwen_make_io(uint8_t *to, size_t room, const uint16_t *words, size_t count) {
    if (!logodwen_begin_segment(to, room, LOGODWEN_IO, 0, 0, count)) return 0;
    for (size_t i = 0; i < count; i++) logodwen_put(to, 2 + i, words[i]);
    return logodwen_end_segment(to, LOGODWEN_IO, count);
}

/* A file that is being built. */
struct logodwen_file {
    uint8_t *bytes;
    size_t room;  /* for words, at `bytes` */
    size_t words; /* laid so far; 0 once something had no room or can't be in a file, and then it stays so */
};

/* Begins a file without segments. A type above 1, an attribute above 3 and a name above FF are none. */
static inline void logodwen_file_begin(struct logodwen_file *file, uint8_t *bytes, size_t room, unsigned type, unsigned attribute,
                                       unsigned name) {
    struct logodwen_header header = {type, attribute, name, 0};
    file->bytes = bytes;
    file->room = room;
    file->words = room >= 1 && type <= LOGODWEN_TYPE_DATA && attribute <= 3 && name <= 0xFFu ? 1 : 0;
    if (file->words != 0) logodwen_put(bytes, 0, logodwen_header_word(&header));
}

/* Where the next segment goes, and how many words have room there; and a segment that was laid there, counted. For those below. */
static inline uint8_t *logodwen_file_end(const struct logodwen_file *file) {
    return file->words == 0 ? file->bytes : file->bytes + 2 * file->words;
}
static inline size_t logodwen_file_left(const struct logodwen_file *file) { return file->words == 0 ? 0 : file->room - file->words; }

static inline bool logodwen_file_count(struct logodwen_file *file, size_t laid) {
    if (laid == 0 || file->words == 0 || (file->bytes[0] & 15u) == LOGODWEN_SEGMENTS) {
        file->words = 0;
        return false;
    }
    file->bytes[0]++;
    file->words += laid;
    return true;
}

/* Add a segment, as those above lay it. Answers false where that can't be; the file then is none, and `words` 0. After the last one
   the file is the first `words` words at `bytes`. */
static inline bool logodwen_file_pm(struct logodwen_file *file, unsigned page, unsigned address, const uint32_t *words, size_t count) {
    return logodwen_file_count(file, logodwen_make_pm(logodwen_file_end(file), logodwen_file_left(file), page, address, words, count));
}

static inline bool logodwen_file_dm(struct logodwen_file *file, unsigned page, unsigned address, const uint16_t *words, size_t count) {
    return logodwen_file_count(file, logodwen_make_dm(logodwen_file_end(file), logodwen_file_left(file), page, address, words, count));
}

static inline bool logodwen_file_io(struct logodwen_file *file, const uint16_t *words, size_t count) {
    return logodwen_file_count(file, logodwen_make_io(logodwen_file_end(file), logodwen_file_left(file), words, count));
}

/* ---- Requests. A builder lays a request, and answers how many words it has; 0 where a number is out of its range or there is no room,
   and then it lays nothing; sent all the same, a request of no words is answered ABORT. Those without `room` lay three words at most:
   LOGODWEN_COMMAND_BYTES. ---- */

#define LOGODWEN_COMMAND_BYTES 6u

/* The IDs of the node's own commands. */
#define LOGODWEN_ID_STATUS 0x0Cu        /* answers twelve words: logodwen_read_status */
#define LOGODWEN_ID_PING 0x0Du          /* answers the words that it has */
#define LOGODWEN_ID_FILE_READ 0x05u     /* answers the file; END where there is none of that name, ABORT where it is bad, above
                                           12,286 words, or there are several */
#define LOGODWEN_ID_FILE_WRITE 0x45u    /* stores a file in the lowest empty sector with room */
#define LOGODWEN_ID_FILE_TEST 0x06u     /* answers the sector's status word: 8000 where it is bad */
#define LOGODWEN_ID_FILE_LOAD 0x46u     /* stores a file's segments in the memories */
#define LOGODWEN_ID_SUMMARY 0x07u       /* answers the directory, with the length of each good file: logodwen_read_entry */
#define LOGODWEN_ID_ERASE_START 0x47u   /* begins to erase a sector; logodwen_erase goes on with it */
#define LOGODWEN_ID_ATTRIBUTE_SET 0x48u /* makes a file default or plain */
#define LOGODWEN_ID_PERFORM_IO 0x0Fu    /* runs the pairs of an IO segment, and answers it with what was read */
#define LOGODWEN_ID_PM_READ 0x10u       /* answers a segment: logodwen_read_segment */
#define LOGODWEN_ID_PM_WRITE 0x50u      /* stores a segment */
#define LOGODWEN_ID_DM_READ 0x11u
#define LOGODWEN_ID_DM_WRITE 0x51u
#define LOGODWEN_ID_MODE_READ 0x12u     /* answers the mode, 0 to 3 */
#define LOGODWEN_ID_MODE_WRITE 0x52u
#define LOGODWEN_ID_MASK_READ 0x17u     /* answers 24 words, one a slave, bit i for mask i; not on a CDP */
#define LOGODWEN_ID_MASK_WRITE 0x57u
#define LOGODWEN_ID_LIST_READ 0x1Cu     /* answers the entries of the Q-List: logodwen_read_listed */
#define LOGODWEN_ID_LIST_DELETE 0x5Bu   /* clears an entry's repetitions, or removes the expired entries, or all */
#define LOGODWEN_ID_LIST_WRITE 0x5Cu    /* adds entries, all or none */
#define LOGODWEN_ID_EVENT_READ 0x01u    /* answers the event that was built, once: logodwen_read_event; END where none is unread */
#define LOGODWEN_ID_EVENT_NUMBER 0x02u  /* answers the last event's number, and 0: logodwen_read_event_number */
#define LOGODWEN_ID_EVENT_RESET 0x42u   /* no event is unread, and the last number is 0 */

/* The first byte of a request says whom it is for. Any other is answered ERROR. */
#define LOGODWEN_TO_OWN 0x2Eu    /* this node; the second byte is the ID of the command */
#define LOGODWEN_TO_MASK 0x40u   /* the slaves of a mask; the second byte is its number */
#define LOGODWEN_TO_SLAVES 0x23u /* the slaves of a mask in the next three bytes, slaves 7-0 first */
#define LOGODWEN_TO_ALL 0x2Au    /* all slaves */
#define LOGODWEN_PORT_ANY 0x3Fu  /* by either port; 04 and 05 name one */

/* An own command: the ID, and up to two parameters. */
static inline size_t logodwen_make_command(uint8_t *packet, unsigned id) {
    logodwen_put(packet, 0, (uint16_t)((id & 0xFFu) << 8 | LOGODWEN_TO_OWN));
    return 1;
}

static inline size_t logodwen_make_command_1(uint8_t *packet, unsigned id, unsigned parameter) {
    logodwen_put(packet, 1, (uint16_t)parameter);
    return logodwen_make_command(packet, id) + 1;
}

static inline size_t logodwen_make_command_2(uint8_t *packet, unsigned id, unsigned parameter, unsigned another) {
    logodwen_put(packet, 2, (uint16_t)another);
    return logodwen_make_command_1(packet, id, parameter) + 1;
}

/* A name as a parameter. Its low four bits don't count, but for Erase, to which 0 there says that it is a sector's address. */
static inline unsigned logodwen_name_word(unsigned name) { return name << 4 | 1u; }

static inline size_t logodwen_make_named(uint8_t *packet, unsigned id, unsigned name) {
    return name > 0xFFu ? 0 : logodwen_make_command_1(packet, id, logodwen_name_word(name));
}

static inline size_t logodwen_make_status(uint8_t *packet) { return logodwen_make_command(packet, LOGODWEN_ID_STATUS); }
static inline size_t logodwen_make_summary(uint8_t *packet) { return logodwen_make_command(packet, LOGODWEN_ID_SUMMARY); }
static inline size_t logodwen_make_mode_read(uint8_t *packet) { return logodwen_make_command(packet, LOGODWEN_ID_MODE_READ); }
static inline size_t logodwen_make_mask_read(uint8_t *packet) { return logodwen_make_command(packet, LOGODWEN_ID_MASK_READ); }
static inline size_t logodwen_make_list_read(uint8_t *packet) { return logodwen_make_command(packet, LOGODWEN_ID_LIST_READ); }
static inline size_t logodwen_make_event_read(uint8_t *packet) { return logodwen_make_command(packet, LOGODWEN_ID_EVENT_READ); }
static inline size_t logodwen_make_event_number(uint8_t *packet) { return logodwen_make_command(packet, LOGODWEN_ID_EVENT_NUMBER); }
static inline size_t logodwen_make_event_reset(uint8_t *packet) { return logodwen_make_command(packet, LOGODWEN_ID_EVENT_RESET); }

/* Of a file by its name. A flash that was programmed elsewhere can have a name in several sectors (logodwen_read_named): then these, and
   Attribute Set, are answered ABORT, and File Read and Load count a FLASH error. To erase one of the sectors its number is given. */
static inline size_t logodwen_make_file_read(uint8_t *packet, unsigned name) {
    return logodwen_make_named(packet, LOGODWEN_ID_FILE_READ, name);
}
static inline size_t logodwen_make_file_test(uint8_t *packet, unsigned name) {
    return logodwen_make_named(packet, LOGODWEN_ID_FILE_TEST, name);
}
static inline size_t logodwen_make_file_load(uint8_t *packet, unsigned name) {
    return logodwen_make_named(packet, LOGODWEN_ID_FILE_LOAD, name);
}
static inline size_t logodwen_make_erase_start(uint8_t *packet, unsigned name) {
    return logodwen_make_named(packet, LOGODWEN_ID_ERASE_START, name);
}

/* Of a sector, 3 to 10, whatever stands in it, and whatever its name. */
static inline size_t logodwen_make_erase_start_at(uint8_t *packet, unsigned sector) {
    return !logodwen_is_sector(sector) ? 0 : logodwen_make_command_1(packet, LOGODWEN_ID_ERASE_START, logodwen_sector_address(sector));
}

static inline size_t logodwen_make_attribute_set(uint8_t *packet, unsigned name, bool is_default) {
    return name > 0xFFu ? 0 : logodwen_make_command_2(packet, LOGODWEN_ID_ATTRIBUTE_SET, logodwen_name_word(name), is_default);
}

/* Mode bit 1 is compressed, bit 0 raw. */
static inline size_t logodwen_make_mode_write(uint8_t *packet, unsigned mode) {
    return mode > 3 ? 0 : logodwen_make_command_1(packet, LOGODWEN_ID_MODE_WRITE, mode);
}

/* Mask 0 to 15 with a set of slaves, bit s for slave s. */
static inline size_t logodwen_make_mask_write(uint8_t *packet, unsigned mask, uint32_t slaves) {
    if (mask >= LOGODWEN_MASKS || slaves >> LOGODWEN_SLAVES != 0) return 0;
    return logodwen_make_command_2(packet, LOGODWEN_ID_MASK_WRITE, mask << 8 | slaves >> 16, slaves & 0xFFFFu);
}

/* A read of so many memory words from an address on: PM an odd count. */
static inline size_t logodwen_make_read(uint8_t *packet, unsigned id, unsigned memory, unsigned page, unsigned address, size_t count) {
    if (!logodwen_permits(memory, count) || logodwen_page_bits(page) == 1 || address > 0x3FFFu) return 0;
    return logodwen_make_command_2(packet, id, memory << 14 | (unsigned)(count + 1), logodwen_page_bits(page) << 14 | address);
}

static inline size_t logodwen_make_pm_read(uint8_t *packet, unsigned page, unsigned address, size_t count) {
    return logodwen_make_read(packet, LOGODWEN_ID_PM_READ, LOGODWEN_PM, page, address, count);
}

static inline size_t logodwen_make_dm_read(uint8_t *packet, unsigned page, unsigned address, size_t count) {
    return logodwen_make_read(packet, LOGODWEN_ID_DM_READ, LOGODWEN_DM, page, address, count);
}

/* A command before words that are there already from word 1 on; of no words, no request. For those below. */
static inline size_t logodwen_make_before(uint8_t *packet, unsigned id, size_t words) {
    return words == 0 ? 0 : logodwen_make_command(packet, id) + words;
}

/* Memory words to write, as a segment: see logodwen_make_pm and its like. */
static inline size_t logodwen_make_pm_write(uint8_t *packet, size_t room, unsigned page, unsigned address, const uint32_t *words,
                                            size_t count) {
    if (room == 0) return 0;
    return logodwen_make_before(packet, LOGODWEN_ID_PM_WRITE, logodwen_make_pm(packet + 2, room - 1, page, address, words, count));
}

static inline size_t logodwen_make_dm_write(uint8_t *packet, size_t room, unsigned page, unsigned address, const uint16_t *words,
                                            size_t count) {
    if (room == 0) return 0;
    return logodwen_make_before(packet, LOGODWEN_ID_DM_WRITE, logodwen_make_dm(packet + 2, room - 1, page, address, words, count));
}

static inline size_t logodwen_make_perform_io(uint8_t *packet, size_t room, const uint16_t *words, size_t count) {
    if (room == 0) return 0;
    return logodwen_make_before(packet, LOGODWEN_ID_PERFORM_IO, logodwen_make_io(packet + 2, room - 1, words, count));
}

/* Entries to add to the Q-List, behind those listed: in a DM segment their number, and five words each. Their due times are not looked at.
   It lays nothing, and answers 0, where some entry can't be written: a header above FF or without LOGODWEN_RECORD_FIRST, a frequency of 0 or
   above 24 bits, repetitions or a parameter above FFFF. The node answers ABORT where they have no room in the list. */
static inline bool logodwen_can_list(const struct logodwen_record *record) {
    return record->header <= 0xFFu && (record->header & LOGODWEN_RECORD_FIRST) != 0 && 1 <= record->frequency
           && record->frequency <= LOGODWEN_FREQUENCY_MOST && record->repetitions <= 0xFFFFu && record->first <= 0xFFFFu
           && record->second <= 0xFFFFu;
}

static inline size_t logodwen_make_list_write(uint8_t *packet, size_t room, const struct logodwen_record *records, size_t count) {
    if (room == 0 || count > LOGODWEN_LIST_RECORDS) return 0;
    for (size_t i = 0; i < count; i++)
        if (!logodwen_can_list(&records[i])) return 0;
    if (!logodwen_begin_segment(packet + 2, room - 1, LOGODWEN_DM, 0, 0x2000, 1 + 5 * count)) return 0;
    logodwen_put(packet, 3, (uint16_t)count);
    for (size_t i = 0; i < count; i++) {
        logodwen_put(packet, 4 + 5 * i, (uint16_t)(records[i].frequency >> 16 << 8 | records[i].header));
        logodwen_put(packet, 5 + 5 * i, (uint16_t)records[i].repetitions);
        logodwen_put(packet, 6 + 5 * i, (uint16_t)(records[i].frequency & 0xFFFFu));
        logodwen_put(packet, 7 + 5 * i, (uint16_t)records[i].first);
        logodwen_put(packet, 8 + 5 * i, (uint16_t)records[i].second);
    }
    return logodwen_make_before(packet, LOGODWEN_ID_LIST_WRITE, logodwen_end_segment(packet + 2, LOGODWEN_DM, 1 + 5 * count));
}

/* Entry Delete in its three ways. Of an entry: its repetitions are 0 from then on, it keeps its place, and the turn stays; ABORT where none is
   listed there. Of those expired: all that have no repetitions left are removed, the others close up in order, and the turn goes to the
   first. Of all: none is listed. Places that are removed serve again. */
static inline size_t logodwen_make_list_delete(uint8_t *packet, unsigned place) {
    return place >= LOGODWEN_LIST_RECORDS ? 0 : logodwen_make_command_1(packet, LOGODWEN_ID_LIST_DELETE, place);
}
static inline size_t logodwen_make_list_delete_expired(uint8_t *packet) { return logodwen_make_command(packet, LOGODWEN_ID_LIST_DELETE); }
static inline size_t logodwen_make_list_delete_all(uint8_t *packet) {
    return logodwen_make_command_1(packet, LOGODWEN_ID_LIST_DELETE, 0xFFFFu);
}

/* A command with words in bytes behind it: a file to write, or words that Ping answers, at most 8,000. They may stand at packet + 2
   already. */
static inline size_t logodwen_make_with(uint8_t *packet, size_t room, unsigned id, const uint8_t *bytes, size_t words) {
    if (room <= words) return 0;
    if (words != 0) memmove(packet + 2, bytes, 2 * words);
    return logodwen_make_command(packet, id) + words;
}

static inline size_t logodwen_make_file_write(uint8_t *packet, size_t room, const uint8_t *bytes, size_t words) {
    return words == 0 || words >= LOGODWEN_REQUEST_WORDS ? 0 : logodwen_make_with(packet, room, LOGODWEN_ID_FILE_WRITE, bytes, words);
}

/* The next packet of a File Write, from word *at of the file on: as many words as have room, and at most 8,192. Answers how many the packet
   has, says its BC, and moves *at on; 0 where the file has no more words, or there is no room for one. Up to 8,191 words it is one packet,
   if there is room. The next is sent once this one is answered NEXT:

       uint32_t bc;
       for (size_t at = 0, laid; (laid = logodwen_make_file_packet(packet, room, file, words, &at, &bc)) != 0;) .. */
static inline size_t logodwen_make_file_packet(uint8_t *packet, size_t room, const uint8_t *bytes, size_t words, size_t *at, uint32_t *bc) {
    size_t head = *at == 0 ? 1 : 0, most = room < LOGODWEN_REQUEST_WORDS ? room : LOGODWEN_REQUEST_WORDS;
    *bc = LOGODWEN_BC_WHOLE;
    if (*at >= words || most <= head) return 0;
    size_t left = words - *at, laid = left < most - head ? left : most - head;
    if (head != 0) logodwen_make_command(packet, LOGODWEN_ID_FILE_WRITE);
    memcpy(packet + 2 * head, bytes + 2 * *at, 2 * laid);
    *bc = (head != 0 ? LOGODWEN_BC_FIRST : LOGODWEN_BC_MIDDLE) | (laid == left ? LOGODWEN_BC_LAST : 0u);
    *at += laid;
    return head + laid;
}

/* Writes a file of any length to a node in one struct, by one packet or as many as it takes, each laid in `packet`. Answers what the last
   one was answered, which is the first that was not answered NEXT, and says how many words of the file were sent: all, or fewer where one
   before the last was answered otherwise, as by ABORT where the file is above 32,768 words. */
static inline uint64_t logodwen_node_write(struct logodwen_node *node, uint32_t now, uint32_t link, uint8_t *packet, size_t room,
                                           const uint8_t *bytes, size_t words, size_t *sent) {
    uint64_t answered;
    uint32_t bc;
    *sent = 0;
    do {
        size_t laid = logodwen_make_file_packet(packet, room, bytes, words, sent, &bc);
        answered = logodwen_node_request(node, now, link, bc, 0, packet, laid);
    } while (*sent < words && logodwen_is_next(answered));
    return answered;
}

static inline size_t logodwen_make_ping(uint8_t *packet, size_t room, const uint8_t *bytes, size_t words) {
    return words > 8000u ? 0 : logodwen_make_with(packet, room, LOGODWEN_ID_PING, bytes, words);
}

/* Whom a request is for that is sent on: these words stand before it. They answer 1, logodwen_make_to_slaves 2:

       size_t words = logodwen_make_to_slaves(packet, 1u << 5 | 1u << 7);
       words += logodwen_make_status(packet + 2 * words); */
static inline size_t logodwen_make_to_slave(uint8_t *packet, unsigned slave) {
    if (slave >= LOGODWEN_SLAVES) return 0;
    logodwen_put(packet, 0, (uint16_t)(LOGODWEN_PORT_ANY << 8 | slave));
    return 1;
}

static inline size_t logodwen_make_to_mask(uint8_t *packet, unsigned mask) {
    if (mask >= LOGODWEN_MASKS) return 0;
    logodwen_put(packet, 0, (uint16_t)(mask << 8 | LOGODWEN_TO_MASK));
    return 1;
}

static inline size_t logodwen_make_to_slaves(uint8_t *packet, uint32_t slaves) {
    if (slaves == 0 || slaves >> LOGODWEN_SLAVES != 0) return 0;
    logodwen_put(packet, 0, (uint16_t)((slaves & 0xFFu) << 8 | LOGODWEN_TO_SLAVES));
    logodwen_put(packet, 1, (uint16_t)(slaves >> 8));
    return 2;
}

static inline size_t logodwen_make_to_all(uint8_t *packet) {
    logodwen_put(packet, 0, (uint16_t)LOGODWEN_TO_ALL);
    return 1;
}

/* ---- Lists of requests: packets in a row, done in one call, and their replies in a row.

   Three packets, of which the second changes what the third answers (examples/requests.c):

       uint8_t row[64], packet[LOGODWEN_COMMAND_BYTES];
       static uint8_t replies[2 * LOGODWEN_REPLIES_BYTES];
       struct logodwen_packets list;
       struct logodwen_packet reply;

       logodwen_packets_begin(&list, row, sizeof row / 2);
       logodwen_packets_add(&list, 0, LOGODWEN_BC_WHOLE, packet, logodwen_make_mode_read(packet));
       logodwen_packets_add(&list, 0, LOGODWEN_BC_WHOLE, packet, logodwen_make_mode_write(packet, 1));
       logodwen_packets_add(&list, 0, LOGODWEN_BC_WHOLE, packet, logodwen_make_mode_read(packet));
       uint64_t answered = logodwen_node_requests(&node, now, &list, replies, sizeof replies / 2);
       for (size_t i = 0, at = 0; i < logodwen_done(answered); i++) {
           at = logodwen_read_reply(replies, sizeof replies / 2, at, &reply);
           if (at == 0) break; // not what the call has left there
           .. logodwen_packet_text(&reply), and its words as those of any other reply
       }

   Where fewer were done than the list has, packet logodwen_done(answered) is the one at which it stopped (logodwen_read_packet): by itself
   it is given to logodwen_request, which asks the slave or says why it is refused; the others go into the next list. ---- */

/* A list that is being laid. It is the first `words` words at `bytes`. */
struct logodwen_packets {
    uint8_t *bytes;
    size_t room;  /* for words, at `bytes` */
    size_t words; /* laid so far */
    size_t count; /* packets laid so far */
};

#define LOGODWEN_BEFORE_PACKET 3u /* words that stand before each packet: link, BC and length */
#define LOGODWEN_BEFORE_REPLY 2u  /* .. and before each reply: BC and length */

/* Begins a list without packets. */
static inline void logodwen_packets_begin(struct logodwen_packets *list, uint8_t *bytes, size_t room) {
    list->bytes = bytes;
    list->room = room;
    list->words = list->count = 0;
}

/* How many words the next packet has room for, and where they stand: a request can be laid there at once, and then be added. */
static inline size_t logodwen_packets_left(const struct logodwen_packets *list) {
    size_t left = list->room - list->words;
    return left < LOGODWEN_BEFORE_PACKET ? 0 : left - LOGODWEN_BEFORE_PACKET;
}

static inline uint8_t *logodwen_packets_next(const struct logodwen_packets *list) {
    return list->bytes + 2 * (list->room - logodwen_packets_left(list));
}

/* Adds a packet behind the others: so many words, of a link, with a BC. Answers false where it has no room, or a number is none: a BC above 3,
   a link or a length above FFFF; the list then is as it was, and can be sent so. */
static inline bool logodwen_packets_add(struct logodwen_packets *list, uint32_t link, uint32_t bc, const uint8_t *bytes, size_t words) {
    if (list->room - list->words < LOGODWEN_BEFORE_PACKET || words > logodwen_packets_left(list)) return false;
    if (link > 0xFFFFu || bc > LOGODWEN_BC_WHOLE || words > 0xFFFFu) return false;
    uint8_t *before = list->bytes + 2 * list->words;
    if (words != 0) memmove(logodwen_packets_next(list), bytes, 2 * words);
    logodwen_put(before, 0, (uint16_t)link);
    logodwen_put(before, 1, (uint16_t)bc);
    logodwen_put(before, 2, (uint16_t)words);
    list->words += LOGODWEN_BEFORE_PACKET + words;
    list->count++;
    return true;
}

/* Adds a File Write of any length, by one packet or as many as it takes: see logodwen_make_file_packet. Answers false where they have no room,
   or the file has no words; the list then is as it was. */
static inline bool logodwen_packets_add_file(struct logodwen_packets *list, uint32_t link, const uint8_t *bytes, size_t words) {
    struct logodwen_packets longer = *list;
    uint32_t bc;
    size_t at = 0;
    do {
        uint8_t *next = logodwen_packets_next(&longer);
        size_t laid = logodwen_make_file_packet(next, logodwen_packets_left(&longer), bytes, words, &at, &bc);
        if (laid == 0 || !logodwen_packets_add(&longer, link, bc, next, laid)) return false;
    } while (at < words);
    *list = longer;
    return true;
}

/* Does the list's packets on a node in one struct. The replies have a run of their own, of so many words: as many as the replies take, two
   before each, and 12,288 and two for the last one, however short it is. */
static inline uint64_t logodwen_node_requests(struct logodwen_node *node, uint32_t now, const struct logodwen_packets *list, uint8_t *replies,
                                              size_t room) {
    return logodwen_requests(now, list->bytes, 2 * list->words, node->state, sizeof node->state, node->flash, node->flash_len,
                             node->pm, node->pm_len, node->dm, node->dm_len, node->io, node->io_len, node->area, sizeof node->area,
                             node->list, sizeof node->list, node->events, sizeof node->events, replies, 2 * room);
}

/* Reads the packet with a length and a BC before it, in so many words from a place on. For those below. */
static inline size_t logodwen_read_row(const uint8_t *row, size_t words, size_t at, size_t before, struct logodwen_packet *packet) {
    if (words < before || at > words - before) return 0;
    uint32_t bc = logodwen_get(row, at + before - 2);
    size_t length = logodwen_get(row, at + before - 1);
    if (bc > LOGODWEN_BC_WHOLE || length > words - before - at) return 0;
    packet->bytes = length == 0 ? NULL : row + 2 * (at + before);
    packet->words = length;
    packet->bc = bc;
    return at + before + length;
}

/* Reads the packet at a place of a list of so many words, with its link: answers the place past it, or 0 where none stands there whole, with a
   BC up to 3; then leaves `link` and `packet`. */
static inline size_t logodwen_read_packet(const uint8_t *packets, size_t words, size_t at, uint32_t *link, struct logodwen_packet *packet) {
    size_t past = logodwen_read_row(packets, words, at, LOGODWEN_BEFORE_PACKET, packet);
    if (past != 0) *link = logodwen_get(packets, at);
    return past;
}

/* Reads the reply at a place of a list's replies: answers the place past it, or 0 where none stands there, and then leaves `reply`. The words
   behind the last reply are the host's own: how many replies there are logodwen_done says. */
static inline size_t logodwen_read_reply(const uint8_t *replies, size_t words, size_t at, struct logodwen_packet *reply) {
    return logodwen_read_row(replies, words, at, LOGODWEN_BEFORE_REPLY, reply);
}

/* ---- Replies. A reply that has words ends with two that are not data: its status word, and the FCS of all words before it. ---- */

#define LOGODWEN_TAIL_WORDS 2u

/* A node's own status word; the FCS is the word behind it. */
#define LOGODWEN_STATUS_TESTS 0x0100u      /* a test at start had errors */
#define LOGODWEN_STATUS_COMPRESSED 0x0080u /* mode bit 1 */
#define LOGODWEN_STATUS_RAW 0x0040u        /* mode bit 0 */
#define LOGODWEN_STATUS_OWN 0x0020u        /* one node's; clear in a group's and in an event's */
#define LOGODWEN_STATUS_ASSEMBLY 0x0200u   /* a group's or an event's: some slave's answer is not whole */

/* Whether a reply has its tail, and its FCS is right. */
static inline bool logodwen_is_sealed(const uint8_t *reply, size_t words) {
    return words >= LOGODWEN_TAIL_WORDS && logodwen_get(reply, words - 1) == logodwen_fcs(reply, words - 1);
}

/* What Status answers. */
struct logodwen_status {
    unsigned program_version, program_type, kind, subdetector, ports, subdetector_version;
    uint32_t time;        /* since the start */
    unsigned node_status; /* the word itself: bits 14, 13 and 12 nonzero build, AMSWire and FLASH errors, 11-8 start tests, 1-0 the asking link */
    unsigned start_tests; /* its bits 11-8, in their place */
    unsigned link;        /* its bits 1-0 */
    unsigned event_number;                               /* of the last event that was built */
    unsigned build_errors, amswire_errors, flash_errors; /* each stops at FFFF; a build error is an event of which some answer is not whole */
    unsigned reply_status;
};

/* Reads a reply to Status; false where it is not one or its FCS is wrong, and then leaves `status`. */
static inline bool logodwen_read_status(const uint8_t *reply, size_t words, struct logodwen_status *status) {
    if (words != 12 || !logodwen_is_sealed(reply, words)) return false;
    unsigned attributes = logodwen_get(reply, 1);
    status->program_version = logodwen_get(reply, 0);
    status->program_type = attributes >> 12;
    status->kind = attributes >> 8 & 15u;
    status->subdetector = attributes >> 4 & 15u;
    status->ports = attributes & 15u;
    status->subdetector_version = logodwen_get(reply, 2);
    status->time = logodwen_get(reply, 3) | (uint32_t)logodwen_get(reply, 4) << 16;
    status->node_status = logodwen_get(reply, 5);
    status->start_tests = status->node_status & 0x0F00u;
    status->link = status->node_status & 3u;
    status->event_number = logodwen_get(reply, 6);
    status->build_errors = logodwen_get(reply, 7);
    status->amswire_errors = logodwen_get(reply, 8);
    status->flash_errors = logodwen_get(reply, 9);
    status->reply_status = logodwen_get(reply, 10);
    return true;
}

/* What a sector is. */
#define LOGODWEN_SECTOR_EMPTY 0u   /* all its words are FFFF */
#define LOGODWEN_SECTOR_GOOD 1u    /* a valid file begins it, and all words behind the file are FFFF */
#define LOGODWEN_SECTOR_BAD 2u     /* neither: also where a valid file has old words behind it */
#define LOGODWEN_SECTOR_ERASING 3u /* it is being erased */

/* What the directory says of a sector. */
struct logodwen_entry {
    unsigned sector, address;
    unsigned first;  /* its first word: a file's header where there is one */
    unsigned status; /* LOGODWEN_SECTOR_EMPTY, LOGODWEN_SECTOR_GOOD, LOGODWEN_SECTOR_BAD or LOGODWEN_SECTOR_ERASING */
    unsigned words;  /* the length of its file where it is good, else 0: at most 4,096 in a bench flash, 32,768 in a full one */
};

/* Reads the entry of a sector, 3 to 10, in a reply to Summary; false where the reply is not one, its FCS is wrong or the sector is none,
   and then leaves `entry`. Such a reply has four words for each sector, in order: its first word; its address; its status, which is 8000
   for bad, 4000 for being erased and else 0; and the length of its file in words where it is good, 0 where it is not. */
static inline bool logodwen_read_entry(const uint8_t *reply, size_t words, unsigned sector, struct logodwen_entry *entry) {
    if (words != 4 * LOGODWEN_SECTORS + LOGODWEN_TAIL_WORDS || !logodwen_is_sector(sector)) return false;
    if (!logodwen_is_sealed(reply, words)) return false;
    size_t at = 4 * (size_t)(sector - LOGODWEN_SECTOR_FIRST);
    unsigned status = logodwen_get(reply, at + 2);
    entry->sector = sector;
    entry->first = logodwen_get(reply, at);
    entry->address = logodwen_get(reply, at + 1);
    entry->status = status & 0x4000u          ? LOGODWEN_SECTOR_ERASING
                    : status & 0x8000u        ? LOGODWEN_SECTOR_BAD
                    : entry->first == 0xFFFFu ? LOGODWEN_SECTOR_EMPTY
                                              : LOGODWEN_SECTOR_GOOD;
    entry->words = logodwen_get(reply, at + 3);
    return true;
}

/* The sectors that have a name, in a reply to Summary: bit s for sector s, whose first word can begin a file and has that name. 0 where none
   has it, or the reply is not one. */
static inline uint32_t logodwen_read_named(const uint8_t *reply, size_t words, unsigned name) {
    struct logodwen_entry entry;
    struct logodwen_header header;
    uint32_t sectors = 0;
    for (unsigned sector = LOGODWEN_SECTOR_FIRST; sector <= LOGODWEN_SECTOR_LAST; sector++)
        if (logodwen_read_entry(reply, words, sector, &entry) && logodwen_read_header(entry.first, &header) && header.name == name)
            sectors |= 1u << sector;
    return sectors;
}

/* Whether some words are a reply to Q-List Read, with a right FCS, and how many entries it tells; where not, leaves `count`. */
static inline bool logodwen_read_list(const uint8_t *reply, size_t words, size_t *count) {
    if (!logodwen_is_sealed(reply, words) || words != 1 + 5 * (size_t)logodwen_get(reply, 0) + LOGODWEN_TAIL_WORDS) return false;
    *count = logodwen_get(reply, 0);
    return true;
}

/* Reads the entry at a place of such a reply; false where it has none there, and then leaves `record`. A reply has no due times: `due` is 0.

       if (logodwen_read_list(reply, words, &count))
           for (size_t place = 0; place < count; place++) { logodwen_read_listed(reply, words, place, &record); .. } */
static inline bool logodwen_read_listed(const uint8_t *reply, size_t words, size_t place, struct logodwen_record *record) {
    if (words < 1 + LOGODWEN_TAIL_WORDS || place >= (words - 1 - LOGODWEN_TAIL_WORDS) / 5) return false;
    logodwen_get_record(reply + 2 + 10 * place, record);
    return true;
}

/* What became of a slave in a group or in an event build: bits 15-11 of its fragment's status word, DAT worth 10 hex and then the code. */
#define LOGODWEN_CODE_NEXT 0x01u           /* it answered NEXT */
#define LOGODWEN_CODE_ABORT 0x02u          /* .. ABORT */
#define LOGODWEN_CODE_ERROR 0x03u          /* .. ERROR */
#define LOGODWEN_CODE_END 0x04u            /* .. END */
#define LOGODWEN_CODE_LATE 0x05u           /* it had not answered within 60 ticks */
#define LOGODWEN_CODE_ERRORS 0x06u         /* its answer, or a later packet of it, came with receive errors */
#define LOGODWEN_CODE_WHOLE 0x10u          /* its data are there, from one packet or several */
#define LOGODWEN_CODE_NOT_FIRST 0x11u      /* its packet was not the first of a block (BC1 clear) */
#define LOGODWEN_CODE_NO_ROOM 0x12u        /* its data had no room */
#define LOGODWEN_CODE_ONE_WORD 0x13u       /* its reply had one word, so no tail; in an event one or two, so no number and tail */
#define LOGODWEN_CODE_OTHER_NUMBER 0x14u   /* in an event: its reply begins with another event's number */
#define LOGODWEN_CODE_WRONG_FCS 0x15u
#define LOGODWEN_CODE_NEXT_LATE 0x16u      /* its reply came in packets: the next was not there within 60 ticks of NEXT */
#define LOGODWEN_CODE_NEXT_EMPTY 0x17u     /* .. it answered NEXT without words */
#define LOGODWEN_CODE_NEXT_FIRST 0x18u     /* .. a later packet was the first of a block again (BC1 set) */
#define LOGODWEN_CODE_PACKET_NO_ROOM 0x1Au /* .. the words so far had no room */
#define LOGODWEN_CODE_JOINED_NUMBER 0x1Bu  /* .. in an event: all came, and it begins with another event's number */
#define LOGODWEN_CODE_JOINED_FCS 0x1Cu     /* .. all came, and the FCS at the end is wrong */

/* A slave's fragment of a group's reply or of an event. What its code does not have is 0. */
struct logodwen_fragment {
    unsigned slave, code;
    unsigned slave_status;     /* of WHOLE and NO_ROOM: bits 10-5 of the slave's own status word, in their place */
    const uint8_t *data;       /* of WHOLE, in the reply, of an event without the slave's event number; else NULL */
    size_t data_words;
    unsigned rx_status;        /* of ERRORS and of codes above WHOLE: what the receiver said of the last packet that came in time */
    unsigned rx_address;       /* of ERRORS */
    unsigned reply_words;      /* of codes above WHOLE: the words of the slave's reply that had come, FFFF if more, and the first of them */
    unsigned first_word;
};

/* Whether a fragment of that code has so many words between its length and its status word. */
static inline bool logodwen_code_has(unsigned code, size_t words) {
    switch (code) {
    case LOGODWEN_CODE_NEXT:
    case LOGODWEN_CODE_ABORT:
    case LOGODWEN_CODE_ERROR:
    case LOGODWEN_CODE_END:
    case LOGODWEN_CODE_LATE: return words == 0;
    case LOGODWEN_CODE_ERRORS: return words == 2;
    case LOGODWEN_CODE_WHOLE: return true;
    case LOGODWEN_CODE_NOT_FIRST:
    case LOGODWEN_CODE_NO_ROOM:
    case LOGODWEN_CODE_ONE_WORD:
    case LOGODWEN_CODE_OTHER_NUMBER:
    case LOGODWEN_CODE_WRONG_FCS:
    case LOGODWEN_CODE_NEXT_LATE:
    case LOGODWEN_CODE_NEXT_EMPTY:
    case LOGODWEN_CODE_NEXT_FIRST:
    case LOGODWEN_CODE_PACKET_NO_ROOM:
    case LOGODWEN_CODE_JOINED_NUMBER:
    case LOGODWEN_CODE_JOINED_FCS: return words == 3;
    default: return false;
    }
}

static inline const char *logodwen_code_text(unsigned code) {
    switch (code) {
    case LOGODWEN_CODE_NEXT: return "NEXT";
    case LOGODWEN_CODE_ABORT: return "ABORT";
    case LOGODWEN_CODE_ERROR: return "ERROR";
    case LOGODWEN_CODE_END: return "END";
    case LOGODWEN_CODE_LATE: return "late";
    case LOGODWEN_CODE_ERRORS: return "receive errors";
    case LOGODWEN_CODE_WHOLE: return "DATA";
    case LOGODWEN_CODE_NOT_FIRST: return "not the first packet";
    case LOGODWEN_CODE_NO_ROOM: return "no room";
    case LOGODWEN_CODE_ONE_WORD: return "one word";
    case LOGODWEN_CODE_OTHER_NUMBER: return "another event";
    case LOGODWEN_CODE_WRONG_FCS: return "wrong FCS";
    case LOGODWEN_CODE_NEXT_LATE: return "late after NEXT";
    case LOGODWEN_CODE_NEXT_EMPTY: return "empty after NEXT";
    case LOGODWEN_CODE_NEXT_FIRST: return "first packet again";
    case LOGODWEN_CODE_PACKET_NO_ROOM: return "no room for a packet";
    case LOGODWEN_CODE_JOINED_NUMBER: return "another event, in packets";
    case LOGODWEN_CODE_JOINED_FCS: return "wrong FCS of the joined reply";
    default: return "no code";
    }
}

/* Reads the fragment at a place of words that hold fragments up to an end, whatever its code. For those below. */
static inline size_t logodwen_fragment_at(const uint8_t *reply, size_t end, size_t at, struct logodwen_fragment *fragment) {
    if (end < 2 || at > end - 2) return 0;
    size_t length = logodwen_get(reply, at), left = end - at - 1;
    if (length == 0 || length > left) return 0;
    unsigned status = logodwen_get(reply, at + length);
    struct logodwen_fragment found = {status & 31u, status >> 11, status & 0x07E0u, NULL, 0, 0, 0, 0, 0};
    if (found.slave >= LOGODWEN_SLAVES || !logodwen_code_has(found.code, length - 1)) return 0;
    if (found.slave_status != 0 && found.code != LOGODWEN_CODE_WHOLE && found.code != LOGODWEN_CODE_NO_ROOM) return 0;
    if (found.code == LOGODWEN_CODE_WHOLE) {
        found.data = reply + 2 * at + 2;
        found.data_words = length - 1;
    } else if (found.code == LOGODWEN_CODE_ERRORS) {
        found.rx_status = logodwen_get(reply, at + 1);
        found.rx_address = logodwen_get(reply, at + 2);
    } else if (found.code > LOGODWEN_CODE_WHOLE) {
        found.rx_status = logodwen_get(reply, at + 1);
        found.reply_words = logodwen_get(reply, at + 2);
        found.first_word = logodwen_get(reply, at + 3);
    }
    *fragment = found;
    return at + 1 + length;
}

/* Whether a code is that of an event alone, since no group compares a number. */
static inline bool logodwen_is_event_code(unsigned code) {
    return code == LOGODWEN_CODE_OTHER_NUMBER || code == LOGODWEN_CODE_JOINED_NUMBER;
}

/* Reads the fragment at a place of a group's reply: answers the place past it, or 0 where none stands there that a node could have laid,
   and then leaves `fragment`. The walk over a reply, whose FCS is to be looked at first (logodwen_is_sealed); over one that another node
   sent it goes to the end where logodwen_capture has accepted the words:

       for (size_t at = 0; at + LOGODWEN_TAIL_WORDS < words; ) {
           at = logodwen_read_fragment(reply, words, at, &fragment);
           if (at == 0) break; // no group's reply
           ..
       } */
static inline size_t logodwen_read_fragment(const uint8_t *reply, size_t words, size_t at, struct logodwen_fragment *fragment) {
    struct logodwen_fragment found;
    if (words < LOGODWEN_TAIL_WORDS) return 0;
    size_t past = logodwen_fragment_at(reply, words - LOGODWEN_TAIL_WORDS, at, &found);
    if (past == 0 || logodwen_is_event_code(found.code)) return 0;
    *fragment = found;
    return past;
}

/* Reads a reply to Event Number: the last event's number; false where it is not one or its FCS is wrong, and then leaves `number`. */
static inline bool logodwen_read_event_number(const uint8_t *reply, size_t words, unsigned *number) {
    if (words != 2 + LOGODWEN_TAIL_WORDS || !logodwen_is_sealed(reply, words)) return false;
    *number = logodwen_get(reply, 0);
    return true;
}

/* An event, as Read Event hands it out and as it stands in the event area: its number, a fragment for each slave that is not left out, two words
   for those that are, and the two words that end every reply. */
struct logodwen_event {
    unsigned number;
    uint32_t left_out; /* the slaves that had nothing but their status word to tell, bit s for slave s: they have no fragment */
    unsigned status;   /* LOGODWEN_STATUS_.. */
};

#define LOGODWEN_EVENT_HEAD_WORDS 1u /* before the fragments: the number */
#define LOGODWEN_EVENT_TAIL_WORDS 4u /* behind them: the slaves left out, 23-16 and 15-0, the status word and the FCS */

/* Reads an event; false where it is too short for one, has a slave above 23 or its FCS is wrong, and then leaves `event`. The walk over its
   fragments:

       for (size_t at = LOGODWEN_EVENT_HEAD_WORDS; at + LOGODWEN_EVENT_TAIL_WORDS < words; ) {
           at = logodwen_read_event_fragment(reply, words, at, &fragment);
           if (at == 0) break; // no event
           ..
       } */
static inline bool logodwen_read_event(const uint8_t *reply, size_t words, struct logodwen_event *event) {
    if (words < LOGODWEN_EVENT_HEAD_WORDS + LOGODWEN_EVENT_TAIL_WORDS || !logodwen_is_sealed(reply, words)) return false;
    uint32_t high = logodwen_get(reply, words - 4), low = logodwen_get(reply, words - 3);
    if (high > 0xFFu) return false;
    event->number = logodwen_get(reply, 0);
    event->left_out = high << 16 | low;
    event->status = logodwen_get(reply, words - 2);
    return true;
}

/* Reads the fragment at a place of an event: answers the place past it, or 0 where none stands there that a node could have laid, and then
   leaves `fragment`. One of code WHOLE without data is left out of an event, and is none. */
static inline size_t logodwen_read_event_fragment(const uint8_t *reply, size_t words, size_t at, struct logodwen_fragment *fragment) {
    struct logodwen_fragment found;
    if (words < LOGODWEN_EVENT_TAIL_WORDS || at < LOGODWEN_EVENT_HEAD_WORDS) return 0;
    size_t past = logodwen_fragment_at(reply, words - LOGODWEN_EVENT_TAIL_WORDS, at, &found);
    if (past == 0 || (found.code == LOGODWEN_CODE_WHOLE && found.data_words == 0)) return 0;
    *fragment = found;
    return past;
}

/* ---- The state bytes, low byte first, for a host that wants to look into them, keep them or send them. What a case does not use is 0, and
   bytes that are not as told here are refused by 5. Their form belongs to LOGODWEN_VERSION: a state that was kept from version 5 or 4, which has
   192 bytes, is one of version 6 with sixteen bytes 0 behind it, and so is one from version 3, which has 188 bytes, with twenty. ---- */
#define LOGODWEN_AT_KIND 0u                 /* 1 byte: 1 or 2 */
#define LOGODWEN_AT_PORTS 1u                /* 1: 1 to 4 */
#define LOGODWEN_AT_SUBDETECTOR 2u          /* 1: 0 to 7 */
#define LOGODWEN_AT_MODE 3u                 /* 1: 0 to 3 */
#define LOGODWEN_AT_PROGRAM_VERSION 4u      /* 2 */
#define LOGODWEN_AT_SUBDETECTOR_VERSION 6u  /* 2 */
#define LOGODWEN_AT_START_TESTS 8u          /* 2: bits 11 to 8; the others are not looked at */
#define LOGODWEN_AT_AMSWIRE_ERRORS 10u      /* 2: stops at FFFF */
#define LOGODWEN_AT_FLASH_ERRORS 12u        /* 2: stops at FFFF */
#define LOGODWEN_AT_ERASING 14u             /* 1: 0 nothing, else the sector being erased, 3 to 10 */
#define LOGODWEN_AT_PENDING 15u             /* 1: 0 nothing, 1 a slave, 2 a group, 3 an event build */
#define LOGODWEN_AT_CLOCK 16u               /* 4: the time at start */
#define LOGODWEN_AT_FLASH_WORDS 20u         /* 4: the flash's size in words, 32,768 or 262,144 */
#define LOGODWEN_AT_ERASED 24u              /* 4: erasing: words set so far */
#define LOGODWEN_AT_LINK 28u                /* 1: pending: the link that asked; of a build 0 */
#define LOGODWEN_AT_SLAVE 29u               /* 1: pending: the slave being asked */
#define LOGODWEN_AT_FROM 30u                /* 1: group: the word from which the request is sent on, 1 or 2 */
#define LOGODWEN_AT_TALLY 31u               /* 1: group: 0 no reply yet; all 1 NEXT, 2 ABORT, 3 ERROR, 4 END, 5 data; 6 mixed.
                                               Build: 0 no answer yet; all 1 without data, 5 data with code 0; 6 mixed */
#define LOGODWEN_AT_ASKED 32u               /* 4: group, build: the slaves, bit s for slave s */
#define LOGODWEN_AT_ASKED_AT 36u            /* 4: pending: the time when the slave was asked, or sent NEXT */
#define LOGODWEN_AT_BUILT 40u               /* 4: group, build: words of fragments gathered so far */
#define LOGODWEN_AT_MASKS 44u               /* 64: masks 0 to 15, four bytes each, bit s for slave s */
#define LOGODWEN_AT_DIRECTORY 108u          /* 64: four words for each of the sectors 3 to 10, as Summary answers them: first word, address,
                                               status, and the length of its file where it is good, else 0 */
#define LOGODWEN_AT_WRITE 172u              /* 1: 1 if a file comes in several packets, else 0 */
#define LOGODWEN_AT_WRITE_LINK 173u         /* 1: .. its link; the bytes 174 and 175 are 0 */
#define LOGODWEN_AT_JOINED 176u             /* 4: .. words joined so far, at most 32,768 */
#define LOGODWEN_AT_RECEIVED 180u           /* 4: group, build: words of the asked slave's reply that have come in packets so far; with those
                                               gathered, five for each slave to come and two more, of a build five more, they are at most
                                               12,288 */
#define LOGODWEN_AT_RX_STATUS 184u          /* 2: .. RX status of the last of its packets, 0 where none has come; the bytes 186 and 187 are 0 */
#define LOGODWEN_AT_LISTED 188u             /* 2: entries of the Q-List that are listed, at most 910 */
#define LOGODWEN_AT_TURN 190u               /* 2: the place whose turn is next: below those listed, 0 where none is */
#define LOGODWEN_AT_EVENT 192u              /* 2: the last event's number */
#define LOGODWEN_AT_BUILD_ERRORS 194u       /* 2: events of which some answer is not whole: stops at FFFF */
#define LOGODWEN_AT_UNREAD 196u             /* 4: words of the event that is built and not read, at most 12,288; 0 where none is */
#define LOGODWEN_AT_ASKS 200u               /* 1: build: times that the slave has been asked, 1 to 3; the bytes 201 to 203 are 0 */
#define LOGODWEN_AT_LEFT_OUT 204u           /* 4: build: the slaves left out so far, bit s for slave s */

#ifdef __cplusplus
}
#endif

#endif
