/*
 * Packets of facts and of rules, built and read. Plain functions for C11; vornulica.hpp has the same for C++.
 *
 * All of it is code outside the proof, held against the library by tests. The library judges every packet anyhow.
 *
 *   uint8_t bytes[RIG_MAX_FACTS_SIZE];
 *   struct rig_facts_builder facts = rig_facts_begin(bytes, sizeof bytes, joints);
 *   rig_facts_kind(&facts, rig_joint_of(0), RIG_KIND_LEFT_ARM);
 *   rig_facts_link(&facts, rig_joint_of(0), 1, rig_joint_of(1));
 *   answer = rig_take(block, sizeof block, bytes, rig_facts_size(&facts));
 *
 * A builder lays no more than fits and cuts nothing off. What did not fit is told three times over: by the function
 * that gives false, by the builder's state, which stays what it became, and by a size of 0, which the library refuses
 * with RIG_BAD_LENGTH. So the functions' own answers may be left unread.
 */
#ifndef VORNULICA_PACKETS_H
#define VORNULICA_PACKETS_H

#include "vornulica.h"

#include <string.h>

#ifdef __cplusplus
extern "C" {
#endif

/* ---------------------------------------------------------------------------------------------------------- joints */

/* A joint of the rig and a joint of a rule's own are two types: neither can be taken for the other. */
struct rig_joint {
    uint8_t number;
};
struct rig_rule_joint {
    uint8_t number;
};

/* The one place that holds both: the rule's joint is to be the rig's. */
struct rig_tie {
    struct rig_rule_joint rule;
    struct rig_joint rig;
};

/*
 * A number as the one byte that a packet has for it. What is over 255 becomes 255 and not some smaller number: no
 * joint, kind, link or joint count may be 255, so that the library refuses it as out of range.
 */
RIG_NODISCARD static inline uint8_t rig_byte_of(size_t number) { return RIG_AS(uint8_t, number < 255 ? number : 255); }

RIG_NODISCARD static inline struct rig_joint rig_joint_of(size_t number)
{
    struct rig_joint joint;
    joint.number = rig_byte_of(number);
    return joint;
}

RIG_NODISCARD static inline struct rig_rule_joint rig_rule_joint_of(size_t number)
{
    struct rig_rule_joint joint;
    joint.number = rig_byte_of(number);
    return joint;
}

/* -------------------------------------------------------------------------------------------------------- building */

/* How a builder stands. The first of these that is not RIG_FITS stays. */
enum rig_building {
    RIG_FITS = 0,
    /* The buffer has no room for it. */
    RIG_BUFFER_FULL = 1,
    /* It would be a tie over RIG_MAX_TIES. */
    RIG_TOO_MANY_TIES = 2,
    /* It would be a fact over RIG_MAX_FACTS. */
    RIG_TOO_MANY_FACTS = 3
};

/* A packet in a buffer that belongs to the host: at each step a whole one, as long as the state is RIG_FITS. */
struct rig_builder {
    uint8_t* bytes;
    size_t room;
    size_t size;
    size_t ties;
    size_t facts;
    enum rig_building state;
};

/* States the length that the packet has; one that failed states 0, so that the buffer holds no packet either. */
static inline void rig_builder_state_length(struct rig_builder* builder)
{
    const size_t length = builder->state == RIG_FITS ? builder->size - 2 : 0;
    if (builder->room < 2)
        return;
    builder->bytes[0] = RIG_AS(uint8_t, length / 256);
    builder->bytes[1] = RIG_AS(uint8_t, length % 256);
}

static inline bool rig_builder_fail(struct rig_builder* builder, enum rig_building state)
{
    builder->state = state;
    builder->size = 0;
    rig_builder_state_length(builder);
    return false;
}

RIG_NODISCARD static inline struct rig_builder rig_builder_begin(uint8_t* bytes, size_t room, uint8_t purpose,
                                                                 size_t joints)
{
    struct rig_builder builder;
    builder.bytes = bytes;
    builder.room = room;
    builder.size = RIG_HEAD_SIZE;
    builder.ties = 0;
    builder.facts = 0;
    builder.state = RIG_FITS;
    if (room < RIG_HEAD_SIZE) {
        rig_builder_fail(&builder, RIG_BUFFER_FULL);
        return builder;
    }
    rig_builder_state_length(&builder);
    bytes[2] = RIG_PACKET_VERSION;
    bytes[3] = purpose;
    bytes[4] = 0;
    bytes[5] = rig_byte_of(joints);
    return builder;
}

/* Whether so many more bytes can go in; if not, the builder has failed. */
RIG_NODISCARD static inline bool rig_builder_has_room(struct rig_builder* builder, size_t more)
{
    if (builder->state != RIG_FITS)
        return false;
    if (builder->room - builder->size < more)
        return rig_builder_fail(builder, RIG_BUFFER_FULL);
    return true;
}

static inline bool rig_builder_fact(struct rig_builder* builder, uint8_t tag, uint8_t a, uint8_t b, uint8_t c)
{
    uint8_t* fact;
    if (builder->state == RIG_FITS && builder->facts == RIG_MAX_FACTS)
        return rig_builder_fail(builder, RIG_TOO_MANY_FACTS);
    if (!rig_builder_has_room(builder, RIG_FACT_SIZE))
        return false;
    fact = builder->bytes + builder->size;
    fact[0] = tag;
    fact[1] = a;
    fact[2] = b;
    fact[3] = c;
    builder->size += RIG_FACT_SIZE;
    builder->facts++;
    rig_builder_state_length(builder);
    return true;
}

/* Behind the ties that are there, before all facts. */
static inline bool rig_builder_tie(struct rig_builder* builder, struct rig_tie tie)
{
    uint8_t* place;
    if (builder->state == RIG_FITS && builder->ties == RIG_MAX_TIES)
        return rig_builder_fail(builder, RIG_TOO_MANY_TIES);
    if (!rig_builder_has_room(builder, RIG_TIE_SIZE))
        return false;
    place = builder->bytes + RIG_HEAD_SIZE + RIG_TIE_SIZE * builder->ties;
    memmove(place + RIG_TIE_SIZE, place, RIG_FACT_SIZE * builder->facts);
    place[0] = tie.rule.number;
    place[1] = tie.rig.number;
    builder->size += RIG_TIE_SIZE;
    builder->ties++;
    builder->bytes[4] = RIG_AS(uint8_t, builder->ties);
    rig_builder_state_length(builder);
    return true;
}

/* A packet of facts about the rig. It takes rig joints alone. */
struct rig_facts_builder {
    struct rig_builder packet;
};

/* Begins a packet of no facts, for a session of so many joints. */
RIG_NODISCARD static inline struct rig_facts_builder rig_facts_begin(uint8_t* bytes, size_t room, size_t joints)
{
    struct rig_facts_builder facts;
    facts.packet = rig_builder_begin(bytes, room, RIG_FACTS, joints);
    return facts;
}

/* The joint has the kind. */
static inline bool rig_facts_kind(struct rig_facts_builder* facts, struct rig_joint joint, size_t kind)
{
    return rig_builder_fact(&facts->packet, RIG_HAS_KIND, joint.number, rig_byte_of(kind), 0);
}

/* The two joints are one. */
static inline bool rig_facts_same(struct rig_facts_builder* facts, struct rig_joint a, struct rig_joint b)
{
    return rig_builder_fact(&facts->packet, RIG_IS_ONE_WITH, a.number, b.number, 0);
}

/* The link of the one joint leads to the other. */
static inline bool rig_facts_link(struct rig_facts_builder* facts, struct rig_joint from, size_t link,
                                  struct rig_joint to)
{
    return rig_builder_fact(&facts->packet, RIG_LINK_LEADS, from.number, rig_byte_of(link), to.number);
}

/* The bytes of the packet, from the start of the buffer; 0 if something did not fit. */
RIG_NODISCARD static inline size_t rig_facts_size(const struct rig_facts_builder* facts) { return facts->packet.size; }

/* A rule. Its facts take its own joints alone. Ties may be put in at any time: they come to stand before the facts. */
struct rig_rule_builder {
    struct rig_builder packet;
};

/* Begins a rule of so many joints of its own, with no ties and no facts. The library asks for 1 to 8 ties. */
RIG_NODISCARD static inline struct rig_rule_builder rig_rule_begin(uint8_t* bytes, size_t room, size_t joints)
{
    struct rig_rule_builder rule;
    rule.packet = rig_builder_begin(bytes, room, RIG_RULE, joints);
    return rule;
}

/* The rule's joint is to be this joint of the rig. */
static inline bool rig_rule_tie(struct rig_rule_builder* rule, struct rig_rule_joint joint, struct rig_joint to)
{
    struct rig_tie tie;
    tie.rule = joint;
    tie.rig = to;
    return rig_builder_tie(&rule->packet, tie);
}

/* The joint has the kind. */
static inline bool rig_rule_kind(struct rig_rule_builder* rule, struct rig_rule_joint joint, size_t kind)
{
    return rig_builder_fact(&rule->packet, RIG_HAS_KIND, joint.number, rig_byte_of(kind), 0);
}

/* The two joints are one. */
static inline bool rig_rule_same(struct rig_rule_builder* rule, struct rig_rule_joint a, struct rig_rule_joint b)
{
    return rig_builder_fact(&rule->packet, RIG_IS_ONE_WITH, a.number, b.number, 0);
}

/* The link of the one joint leads to the other. */
static inline bool rig_rule_link(struct rig_rule_builder* rule, struct rig_rule_joint from, size_t link,
                                 struct rig_rule_joint to)
{
    return rig_builder_fact(&rule->packet, RIG_LINK_LEADS, from.number, rig_byte_of(link), to.number);
}

/* The bytes of the packet, from the start of the buffer; 0 if something did not fit. */
RIG_NODISCARD static inline size_t rig_rule_size(const struct rig_rule_builder* rule) { return rule->packet.size; }

/* --------------------------------------------------------------------------------------------------------- reading */

/*
 * Whether bytes have the form of a packet, and the first way in which they have not. The form is its lengths alone:
 * what the numbers in it may be depends on the call and on the session, and is the library's to say.
 */
enum rig_form {
    /* Place 0. */
    RIG_FORM_GOOD = 0,
    /* Under 6 bytes. Place: where they end. */
    RIG_FORM_SHORT = 1,
    /* Not L + 2 bytes. Place 0, where L stands. */
    RIG_FORM_LENGTH = 2,
    /* They end before the last tie does. Place: the tie that is cut off or missing. */
    RIG_FORM_TIE_CUT = 3,
    /* They end inside a fact. Place: that fact. */
    RIG_FORM_FACT_CUT = 4,
    /* Over RIG_MAX_FACTS facts. Place: the first one over. */
    RIG_FORM_TOO_MANY = 5
};

/* What stands in the bytes of a packet, good or not. */
struct rig_packet {
    enum rig_form form;
    size_t place;
    /* The fields before the ties, as they stand; 0 where the bytes end before. */
    uint16_t length;
    uint8_t version;
    uint8_t purpose;
    uint8_t tie_count;
    uint8_t joint_count;
    /* How many whole ties and facts there are to read: all that the bytes hold, whatever the form. */
    size_t ties;
    size_t facts;
    /* The bytes themselves, which belong to the host. */
    const uint8_t* bytes;
};

/* A fact of a packet of facts, and one of a rule: they differ in whose joints they speak of. */
struct rig_fact {
    /* Of enum rig_tag, or another: that fact is refused. */
    uint8_t tag;
    struct rig_joint joint;
    /* The kind or the link; 0 for RIG_IS_ONE_WITH. */
    uint8_t number;
    /* The joint that it is one with or that the link leads to; 0 for RIG_HAS_KIND. */
    struct rig_joint other;
    /* A byte that has to be 0, but may be another. */
    uint8_t unused;
};
struct rig_rule_fact {
    uint8_t tag;
    struct rig_rule_joint joint;
    uint8_t number;
    struct rig_rule_joint other;
    uint8_t unused;
};

/* The offset of a packet's tie and of its fact. */
RIG_NODISCARD static inline size_t rig_tie_at(size_t i) { return RIG_HEAD_SIZE + RIG_TIE_SIZE * i; }
RIG_NODISCARD static inline size_t rig_fact_at(const struct rig_packet* packet, size_t i)
{
    return rig_tie_at(packet->ties) + RIG_FACT_SIZE * i;
}

/* The other way: the number of the fact, from 0, that lies at an offset, as the place of RIG_CLASH or RIG_BAD_PART. Of
   an offset before all facts it is one that no fact of the packet has. */
RIG_NODISCARD static inline size_t rig_fact_number(const struct rig_packet* packet, size_t offset)
{
    const size_t first = rig_fact_at(packet, 0);
    return offset < first ? packet->facts : (offset - first) / RIG_FACT_SIZE;
}

/* The first way in which the bytes have not the form of a packet, once all the rest of it is read. */
static inline void rig_packet_judge(struct rig_packet* packet, size_t size)
{
    packet->form = RIG_FORM_GOOD;
    packet->place = 0;
    if (size < RIG_HEAD_SIZE) {
        packet->form = RIG_FORM_SHORT;
        packet->place = size;
    } else if (size - 2 != packet->length) {
        packet->form = RIG_FORM_LENGTH;
    } else if (packet->ties < packet->tie_count) {
        packet->form = RIG_FORM_TIE_CUT;
        packet->place = rig_tie_at(packet->ties);
    } else if (rig_fact_at(packet, packet->facts) != size) {
        packet->form = RIG_FORM_FACT_CUT;
        packet->place = rig_fact_at(packet, packet->facts);
    } else if (packet->facts > RIG_MAX_FACTS) {
        packet->form = RIG_FORM_TOO_MANY;
        packet->place = rig_fact_at(packet, RIG_MAX_FACTS);
    }
}

/* Reads any bytes, none outside them. They must outlive what is given, which the functions below read on. */
RIG_NODISCARD static inline struct rig_packet rig_packet_read(const uint8_t* bytes, size_t size)
{
    struct rig_packet packet;
    const size_t behind_head = size > RIG_HEAD_SIZE ? size - RIG_HEAD_SIZE : 0;
    packet.bytes = bytes;
    packet.length = RIG_AS(uint16_t, size > 1 ? bytes[0] * 256 + bytes[1] : 0);
    packet.version = size > 2 ? bytes[2] : 0;
    packet.purpose = size > 3 ? bytes[3] : 0;
    packet.tie_count = size > 4 ? bytes[4] : 0;
    packet.joint_count = size > 5 ? bytes[5] : 0;
    packet.ties = packet.tie_count;
    if (packet.ties > behind_head / RIG_TIE_SIZE)
        packet.ties = behind_head / RIG_TIE_SIZE;
    packet.facts = 0;
    if (packet.ties == packet.tie_count)
        packet.facts = (behind_head - RIG_TIE_SIZE * packet.ties) / RIG_FACT_SIZE;
    rig_packet_judge(&packet, size);
    return packet;
}

/* Reads a tie; gives false, and reads nothing, if there is no such tie. */
RIG_NODISCARD static inline bool rig_packet_tie(const struct rig_packet* packet, size_t i, struct rig_tie* tie)
{
    if (i >= packet->ties)
        return false;
    tie->rule.number = packet->bytes[rig_tie_at(i)];
    tie->rig.number = packet->bytes[rig_tie_at(i) + 1];
    return true;
}

/* A fact's four bytes, taken apart. */
RIG_NODISCARD static inline struct rig_fact rig_fact_of(const uint8_t* bytes)
{
    const bool is_kind = bytes[0] == RIG_HAS_KIND;
    const bool is_same = bytes[0] == RIG_IS_ONE_WITH;
    struct rig_fact fact;
    fact.tag = bytes[0];
    fact.joint.number = bytes[1];
    fact.number = RIG_AS(uint8_t, is_same ? 0 : bytes[2]);
    fact.other.number = RIG_AS(uint8_t, is_kind ? 0 : is_same ? bytes[2] : bytes[3]);
    fact.unused = RIG_AS(uint8_t, is_kind || is_same ? bytes[3] : 0);
    return fact;
}

/* Reads a fact of a packet of facts; gives false, and reads nothing, if there is no such fact or it is no such packet.
 */
RIG_NODISCARD static inline bool rig_packet_fact(const struct rig_packet* packet, size_t i, struct rig_fact* fact)
{
    if (packet->purpose != RIG_FACTS || i >= packet->facts)
        return false;
    *fact = rig_fact_of(packet->bytes + rig_fact_at(packet, i));
    return true;
}

/* Reads a fact of a rule; gives false, and reads nothing, if there is no such fact or it is no rule. */
RIG_NODISCARD static inline bool rig_packet_rule_fact(const struct rig_packet* packet, size_t i,
                                                      struct rig_rule_fact* fact)
{
    struct rig_fact read;
    if (packet->purpose != RIG_RULE || i >= packet->facts)
        return false;
    read = rig_fact_of(packet->bytes + rig_fact_at(packet, i));
    fact->tag = read.tag;
    fact->joint.number = read.joint.number;
    fact->number = read.number;
    fact->other.number = read.other.number;
    fact->unused = read.unused;
    return true;
}

#ifdef __cplusplus
}
#endif

#endif
