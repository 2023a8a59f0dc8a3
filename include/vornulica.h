/*
 * Vornulica decides which mapping rule of a skeleton retargeter may be used.
 *
 * A session holds what is known about one client rig, in a block of bytes that belongs to the host.
 * Clients send facts in packets (rig_take). A rule is asked (rig_ask): it applies, is ruled out, or waits.
 * A rig may be typed as a term, @0:11(1=>@1:16,2=>@3), and shown as one (rig_read_term, rig_write_term).
 *
 * What holds for every call:
 * - It ends with one of the replies below, whatever bytes it is lent. The host checks nothing beforehand.
 * - A refused call changes no byte of the block or of an output: the host goes on with the same session.
 * - Where several replies fit, the first in the call's own list is given. The lists stand at the calls.
 * - A buffer is a pointer, then its number of bytes. A null pointer with 0 bytes is an empty buffer.
 *   No alignment is needed.
 * - The host keeps buffers separate: none that a call may write overlaps another lent to that call.
 * - Nothing is allocated, and nothing is kept between calls outside the lent buffers. So calls may run
 *   side by side, as long as none writes a buffer that another one uses.
 *
 * The seven calls are proved. What stands here beside them (the inline functions, the numbers and the names) is code
 * outside the proof, held against the calls by tests.
 *
 * vornulica_packets.h builds and reads packets, vornulica_blocks.h reads a block; vornulica.hpp is all of it for C++.
 *
 * What kinds, facts, rules and verdicts mean is told from nothing in docs/RULES.md, what holds from one version of the
 * library to the next in README.md under "Between versions", and what each version brings a host in CHANGELOG.md.
 */
#ifndef VORNULICA_H
#define VORNULICA_H

#include <stdbool.h>
#include <stddef.h>
#include <stdint.h>

/* The version of this header and of the library beside it. RIG_VERSION is the text "major.minor.patch". */
#define RIG_VERSION_MAJOR 1
#define RIG_VERSION_MINOR 2
#define RIG_VERSION_PATCH 1
#define RIG_VERSION RIG_TEXT_OF(RIG_VERSION_MAJOR.RIG_VERSION_MINOR.RIG_VERSION_PATCH)
#define RIG_TEXT_OF(expanded) RIG_TEXT_AS_IT_STANDS(expanded)
#define RIG_TEXT_AS_IT_STANDS(text) #text

/* An answer that is thrown away may have been a refusal: compilers that can, warn of it. */
#if defined(__cplusplus) && __cplusplus >= 201703L
#define RIG_NODISCARD [[nodiscard]]
#elif defined(__STDC_VERSION__) && __STDC_VERSION__ >= 202311L
#define RIG_NODISCARD [[nodiscard]]
#elif defined(__GNUC__)
#define RIG_NODISCARD __attribute__((warn_unused_result))
#else
#define RIG_NODISCARD
#endif

/* A conversion in the form of the language that reads it. */
#ifdef __cplusplus
#define RIG_AS(type, value) static_cast<type>(value)
#else
#define RIG_AS(type, value) ((type)(value))
#endif

#ifdef __cplusplus
extern "C" {
#endif

/* Limits. Kinds are numbered from 0 ("none"), 1 is "any"; joints and links are numbered from 0. */
#define RIG_MIN_KINDS 2
#define RIG_MAX_KINDS 64
#define RIG_MIN_JOINTS 1
#define RIG_MAX_JOINTS 64
#define RIG_MIN_RULE_JOINTS 1
#define RIG_MAX_RULE_JOINTS 32
#define RIG_MIN_TIES 1
#define RIG_MAX_TIES 8
#define RIG_LINKS 16
#define RIG_MAX_FACTS 1088

/*
 * The session block. It has no pointers in it: it may be stored, copied and compared as bytes. Where things lie in it:
 *   byte 0      the number of kinds, n
 *   byte 1      the number of joints, v
 *   from 2      the class number of each joint: joints known to be one form a class, numbered by its smallest joint
 *   from 66     the kind of each joint that is the smallest of its class; 1 if none is known
 *   from 130    a row of 16 links for each of these: class numbers, or 255 for a link that is not known
 *   from 1,154  the kind table
 * There is room for 64 joints and 64 x 64 entries; bytes that are not used are 0. vornulica_blocks.h reads this.
 */
#define RIG_BLOCK_SIZE 5250
#define RIG_KIND_COUNT_AT 0
#define RIG_JOINT_COUNT_AT 1
#define RIG_CLASSES_AT 2
#define RIG_KINDS_AT 66
#define RIG_LINKS_AT 130
#define RIG_TABLE_AT 1154
#define RIG_NOT_KNOWN 255

/* The house kinds and their meet table, meet(i,j) at i x 33 + j. docs/KINDS.md has them with their parents. */
#define RIG_HOUSE_KINDS 33
#define RIG_HOUSE_TABLE_SIZE (RIG_HOUSE_KINDS * RIG_HOUSE_KINDS)

enum rig_house_kind {
    RIG_KIND_NONE = 0,
    RIG_KIND_ANY = 1,
    RIG_KIND_LEFT = 2,
    RIG_KIND_RIGHT = 3,
    RIG_KIND_CENTRE = 4,
    RIG_KIND_SPINE = 5,
    RIG_KIND_NECK = 6,
    RIG_KIND_HEAD = 7,
    RIG_KIND_HIPS = 8,
    RIG_KIND_ARM_PART = 9,
    RIG_KIND_LEG_PART = 10,
    RIG_KIND_LEFT_ARM = 11,
    RIG_KIND_RIGHT_ARM = 12,
    RIG_KIND_LEFT_LEG = 13,
    RIG_KIND_RIGHT_LEG = 14,
    RIG_KIND_UPPER_ARM = 15,
    RIG_KIND_FOREARM = 16,
    RIG_KIND_HAND = 17,
    RIG_KIND_THIGH = 18,
    RIG_KIND_SHIN = 19,
    RIG_KIND_FOOT = 20,
    RIG_KIND_LEFT_UPPER_ARM = 21,
    RIG_KIND_RIGHT_UPPER_ARM = 22,
    RIG_KIND_LEFT_FOREARM = 23,
    RIG_KIND_RIGHT_FOREARM = 24,
    RIG_KIND_LEFT_HAND = 25,
    RIG_KIND_RIGHT_HAND = 26,
    RIG_KIND_LEFT_THIGH = 27,
    RIG_KIND_RIGHT_THIGH = 28,
    RIG_KIND_LEFT_SHIN = 29,
    RIG_KIND_RIGHT_SHIN = 30,
    RIG_KIND_LEFT_FOOT = 31,
    RIG_KIND_RIGHT_FOOT = 32
};

/*
 * A packet:
 *   bytes 0, 1  L, big-endian, the number of bytes after these two: 4 + 2 x ties + 4 x facts
 *   byte 2      version, 1
 *   byte 3      purpose, 1 facts or 2 rule
 *   byte 4      ties, 0 for facts
 *   byte 5      joint count, for facts the session's, for a rule that of its own joints
 *   then ties of two bytes: rule joint, rig joint
 *   then facts of four bytes:
 *     1, a, kind, 0   joint a has the kind
 *     2, a, b, 0      joints a and b are one
 *     3, a, link, c   the link of joint a leads to joint c
 * A joint of a fact is a rig joint in facts, and one of the rule's own joints in a rule. vornulica_packets.h builds and
 * reads packets.
 */
#define RIG_PACKET_VERSION 1
#define RIG_HEAD_SIZE 6
#define RIG_TIE_SIZE 2
#define RIG_FACT_SIZE 4

enum rig_purpose {
    RIG_FACTS = 1,
    RIG_RULE = 2,
};

enum rig_tag {
    RIG_HAS_KIND = 1,
    RIG_IS_ONE_WITH = 2,
    RIG_LINK_LEADS = 3,
};

/* The longest packet of each purpose. A solved form is never longer than the longest packet of facts. */
#define RIG_MAX_FACTS_SIZE (RIG_HEAD_SIZE + RIG_FACT_SIZE * RIG_MAX_FACTS)
#define RIG_MAX_RULE_SIZE (RIG_HEAD_SIZE + RIG_TIE_SIZE * RIG_MAX_TIES + RIG_FACT_SIZE * RIG_MAX_FACTS)

/*
 * A term, a rig typed as text, of bytes with no end mark:
 *   term      @ joint, then perhaps : kind, then perhaps ( arguments )
 *   arguments one or more, with a comma between two
 *   argument  link => term
 *   number    0, or one to three digits of which the first is not 0
 * No blanks. A term inside a term is one deeper; the outermost is 1 deep. What a term says, as facts in this order: its
 * kind if it is written, then for each argument that the link of its joint leads to the inner term's joint, followed by
 * all that the inner term says. @0:11(1=>@1:16,2=>@3) says: 0 has kind 11; link 1 of 0 leads to 1; 1 has kind 16; link
 * 2 of 0 leads to 3.
 */
#define RIG_MAX_TEXT_SIZE 16777216
#define RIG_MAX_TERM_DEPTH 16

/*
 * The longest text that rig_write_term gives: 64 terms @dd:dd, ten of them with one digit for the joint, 63 times dd=>,
 * and for each joint with links brackets and one comma less than links; in 64 joints, 16 deep, at least five have none.
 */
#define RIG_MAX_WRITTEN_TERM_SIZE 748

/*
 * The number of a reply. All but RIG_DONE are refusals.
 * Later versions of the library may add numbers: a host treats one that it does not know as a refusal.
 */
enum rig_reply {
    /* Done. Place 0. */
    RIG_DONE = 0,
    /* At opening n or v out of range or a table not n x n bytes; a block not 5,250 bytes; a buffer for the
       house table not 1,089 bytes; a text of over 16,777,216 bytes. Place 0. */
    RIG_BAD_SIZE = 1,
    /* A table entry is n or more. Place: the offset of the first such entry. */
    RIG_NO_KIND = 2,
    /* A law of kind tables is broken. Place: the offset of the entry read; in a pair or triple i x n + j. */
    RIG_LAW_BROKEN = 3,
    /* The block is not well formed; one of zeros, not opened yet, is not. Place 0. */
    RIG_BAD_BLOCK = 4,
    /* The packet has under 6 bytes, or not L + 2 bytes. Place 0. */
    RIG_BAD_LENGTH = 5,
    /* The packet's version is not 1. Place 2. */
    RIG_BAD_VERSION = 6,
    /* Purpose, ties or joint count do not suit the call. Place: 3, 4 or 5, the first that does not. */
    RIG_BAD_HEADER = 7,
    /* No number of facts from 0 to 1,088 fits L. Place 0. */
    RIG_BAD_COUNT = 8,
    /* A tie or fact with an unknown tag, a number out of range or an unused byte that is not 0.
       Place: the offset of the first byte of the first such tie or fact. */
    RIG_BAD_PART = 9,
    /* A rule joint is not reached: neither tied, nor the end of a link of a reached joint.
       Place: the number of the smallest such joint. */
    RIG_NOT_REACHED = 10,
    /* Clash: no rig satisfies the packet together with the facts already taken.
       Place: the offset of the first byte of the first fact such that no rig satisfies the facts already taken and
       those of the packet up to and including it. */
    RIG_CLASH = 11,
    /* The output is shorter than what is to be written. Place 0. */
    RIG_SHORT_OUTPUT = 12,
    /* The text is no term, or one of over 16 terms deep. Place: the first offset where nothing can continue the text,
       that is how many of its first bytes some term begins with; the text's length if it ends early. */
    RIG_NO_TERM = 20,
    /* A number out of range: in a text a joint, a kind or a link, at writing a term the chosen joint.
       Place: the offset of the first digit of the first such number; for the chosen joint 0. */
    RIG_OUT_OF_RANGE = 21,
    /* The term says over 1,088 facts. Place 0. */
    RIG_TERM_TOO_LARGE = 22,
    /* What is known is no tree from the chosen joint, of at most 16 joints deep. Place 0. */
    RIG_NO_TREE = 23
};

/* The verdict on a rule: the third number of rig_ask when it is done. */
enum rig_verdict {
    /* Every rig that satisfies the taken facts satisfies the rule. No later packet changes this. */
    RIG_APPLIES = 1,
    /* No rig that satisfies the taken facts satisfies the rule. No later packet changes this. */
    RIG_RULED_OUT = 2,
    /* Neither: later packets may decide it. */
    RIG_WAITS = 3
};

/* Every call answers with one number: number + 256 x third + 2^32 x place. These split it. */

/* The reply's number, of enum rig_reply. */
RIG_NODISCARD static inline uint8_t rig_number(uint64_t answer) { return RIG_AS(uint8_t, answer & 0xff); }

/* The third number: what it counts stands at each call. 0 for every refusal. */
RIG_NODISCARD static inline uint32_t rig_third(uint64_t answer) { return RIG_AS(uint32_t, answer >> 8 & 0xffffff); }

/* Where the reply points to, as told in enum rig_reply. */
RIG_NODISCARD static inline uint32_t rig_place(uint64_t answer) { return RIG_AS(uint32_t, answer >> 32); }

/* Whether the call is done. An answer is not to be compared with RIG_DONE: it also holds the third number. */
RIG_NODISCARD static inline bool rig_is_done(uint64_t answer) { return rig_number(answer) == RIG_DONE; }

/* What a reply's number says, for people. A number that this header does not know has a text too. */
RIG_NODISCARD static inline const char* rig_reply_text(unsigned number)
{
    switch (number) {
    case RIG_DONE:
        return "done";
    case RIG_BAD_SIZE:
        return "the number of kinds or of joints is out of range, or a table, block or text has not its size";
    case RIG_NO_KIND:
        return "an entry of the kind table is no kind";
    case RIG_LAW_BROKEN:
        return "the kind table breaks a law of meets";
    case RIG_BAD_BLOCK:
        return "the block is not well formed, or was never opened";
    case RIG_BAD_LENGTH:
        return "the packet has under 6 bytes, or not the length that it states";
    case RIG_BAD_VERSION:
        return "the packet's version is not 1";
    case RIG_BAD_HEADER:
        return "the packet's purpose, ties or joint count do not suit the call";
    case RIG_BAD_COUNT:
        return "no number of facts from 0 to 1,088 fits the packet's length";
    case RIG_BAD_PART:
        return "a tie or fact has an unknown tag, a number out of range or an unused byte that is not 0";
    case RIG_NOT_REACHED:
        return "a joint of the rule is not reached from its ties";
    case RIG_CLASH:
        return "the facts clash: no rig satisfies them together with those already taken";
    case RIG_SHORT_OUTPUT:
        return "the output is shorter than what is to be written";
    case RIG_NO_TERM:
        return "the text is no term of at most 16 terms deep";
    case RIG_OUT_OF_RANGE:
        return "a joint, kind or link of the text, or the chosen joint, is out of range";
    case RIG_TERM_TOO_LARGE:
        return "the term says more than 1,088 facts";
    case RIG_NO_TREE:
        return "what is known is no tree from the chosen joint, of at most 16 joints deep";
    default:
        return "a refusal that this header does not know";
    }
}

/*
 * Opens a session of v joints, with the meet table of n kinds: meet(i,j) at i x n + j.
 *
 * Writes, when done: the whole block. What the block held before does not matter.
 * Third: 0.
 * Replies: RIG_DONE
 *   RIG_BAD_SIZE    n not 2 to 64, v not 1 to 64, table_size not n x n, block_size not 5,250
 *   RIG_NO_KIND     at the first entry that is n or more
 *   RIG_LAW_BROKEN  at the entry read: for each i in rising order i x n + i where meet(i,i) is not i,
 *                   i where meet(0,i) is not 0, n + i where meet(1,i) is not i; then i x n + j for
 *                   the first pair with meet(i,j) not meet(j,i); then i x n + j for the first triple
 *                   with meet(meet(i,j),k) not meet(i,meet(j,k))
 * A refused call changes no byte of the block.
 */
RIG_NODISCARD uint64_t rig_open(uint64_t n, uint64_t v, const uint8_t* table, size_t table_size, uint8_t* block,
                                size_t block_size);

/*
 * Takes a packet of facts into the session: all of its facts, or none.
 *
 * Writes, when done: the block. The order of the packets taken and repeated facts make no difference to its bytes.
 * Third: the joins, that is the classes of joints known to be one before, less those after; 0 to 63.
 * Replies: RIG_DONE
 *   RIG_BAD_SIZE    block_size not 5,250
 *   RIG_BAD_BLOCK   place 0
 *   RIG_BAD_LENGTH  place 0
 *   RIG_BAD_VERSION place 2
 *   RIG_BAD_HEADER  3 purpose not 1, 4 ties not 0, 5 joint count not the session's
 *   RIG_BAD_COUNT   place 0
 *   RIG_BAD_PART    at the first byte of the first such fact
 *   RIG_CLASH       at the first byte of the first fact such that no rig satisfies the facts already taken and the
 *                   packet's facts up to and including it; a fact of kind 0 always clashes. Sent again later in the
 *                   session the packet clashes again, at this fact or at an earlier one
 * A refused call changes no byte of the block.
 */
RIG_NODISCARD uint64_t rig_take(uint8_t* block, size_t block_size, const uint8_t* packet, size_t packet_size);

/*
 * Asks a rule of the session.
 *
 * Writes nothing.
 * Third: the verdict, of enum rig_verdict.
 * Replies: RIG_DONE
 *   RIG_BAD_SIZE    block_size not 5,250
 *   RIG_BAD_BLOCK   place 0
 *   RIG_BAD_LENGTH  place 0
 *   RIG_BAD_VERSION place 2
 *   RIG_BAD_HEADER  3 purpose not 2, 4 ties not 1 to 8, 5 joint count not 1 to 32
 *   RIG_BAD_COUNT   place 0
 *   RIG_BAD_PART    at the first byte of the first such tie or fact
 *   RIG_NOT_REACHED the smallest rule joint that is not reached
 * Changes no byte, done or refused.
 */
RIG_NODISCARD uint64_t rig_ask(const uint8_t* block, size_t block_size, const uint8_t* packet, size_t packet_size);

/*
 * Writes the solved form: a packet of facts that gives a fresh session with the same table and joint
 * count the same block. RIG_MAX_FACTS_SIZE bytes are always enough.
 *
 * Writes, when done: the first bytes of out; the rest of out is unchanged.
 * Third: the number of bytes written.
 * Replies: RIG_DONE
 *   RIG_BAD_SIZE     block_size not 5,250
 *   RIG_BAD_BLOCK    place 0
 *   RIG_SHORT_OUTPUT place 0
 * A refused call changes no byte of out.
 */
RIG_NODISCARD uint64_t rig_write(const uint8_t* block, size_t block_size, uint8_t* out, size_t out_size);

/*
 * Reads a term and writes the packet of facts that it says, for a session with this block's kinds and joint count:
 * rig_take takes it. A joint may stand in several terms of the text, and a link twice in one: these are only facts.
 * RIG_MAX_FACTS_SIZE bytes are always enough.
 *
 * Writes, when done: the first bytes of out; the rest of out is unchanged. The block is only read.
 * Third: the number of bytes written.
 * Replies: RIG_DONE
 *   RIG_BAD_SIZE       block_size not 5,250, text_size over 16,777,216
 *   RIG_BAD_BLOCK      place 0
 *   RIG_NO_TERM        at the first offset where nothing can continue the text: 2 in @01, 4 in @1234, 3 in @0(), at the
 *                      text's length if it ends early, at the first byte behind a whole term, and at the bracket of
 *                      a term that is 16 deep
 *   RIG_OUT_OF_RANGE   at the first digit of the first joint not below the session's count, kind not below n or link
 *                      not below 16. Kind 0 is in range
 *   RIG_TERM_TOO_LARGE place 0
 *   RIG_SHORT_OUTPUT   place 0
 * A refused call changes no byte of out.
 */
RIG_NODISCARD uint64_t rig_read_term(const uint8_t* block, size_t block_size, const uint8_t* text, size_t text_size,
                                     uint8_t* out, size_t out_size);

/*
 * Writes what is known as a term, from a chosen joint: kinds but 1, and links rising. Read and taken by a fresh session
 * with the same table and joint count that text gives the same block. RIG_MAX_WRITTEN_TERM_SIZE bytes are always
 * enough.
 *
 * Writes, when done: the first bytes of out; the rest of out is unchanged. There is no closing 0.
 * Third: the number of bytes written.
 * Replies: RIG_DONE
 *   RIG_BAD_SIZE     block_size not 5,250
 *   RIG_BAD_BLOCK    place 0
 *   RIG_OUT_OF_RANGE the joint is not below the session's count; place 0
 *   RIG_NO_TREE      unless no two joints are one, no link leads to the chosen joint, and every other joint that has a
 *                    kind but 1, a link, or a link to it, is reached from the chosen one by exactly one walk of
 *                    links, of at most 15; place 0
 *   RIG_SHORT_OUTPUT place 0
 * A refused call changes no byte of out.
 */
RIG_NODISCARD uint64_t rig_write_term(const uint8_t* block, size_t block_size, uint64_t joint, uint8_t* out,
                                      size_t out_size);

/*
 * Writes the meet table of the house kinds, to open sessions with.
 *
 * Writes, when done: the whole table.
 * Third: 0.
 * Replies: RIG_DONE
 *   RIG_BAD_SIZE  table_size not 1,089
 * A refused call changes no byte of the table.
 */
RIG_NODISCARD uint64_t rig_house(uint8_t* table, size_t table_size);

/*
 * Whether these are the bytes of a good block: one that the other calls take. For a block that was stored and read
 * back, say. Writes nothing.
 */
RIG_NODISCARD static inline bool rig_block_is_good(const uint8_t* block, size_t block_size)
{
    /* The block is judged before the packet, which is empty here and gets this reply from every good block. */
    return rig_number(rig_ask(block, block_size, block, 0)) == RIG_BAD_LENGTH;
}

#ifdef __cplusplus
}
#endif

#endif
