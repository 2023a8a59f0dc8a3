/*
 * What a block holds, read. Plain functions for C11; vornulica.hpp has the same for C++.
 *
 * All of it is code outside the proof, held against the library by tests. It answers any bytes, and what it gives is in
 * range for any bytes; whether a block as a whole is good is asked by rig_block_is_good.
 */
#ifndef VORNULICA_BLOCKS_H
#define VORNULICA_BLOCKS_H

#include "vornulica_packets.h"

#ifdef __cplusplus
extern "C" {
#endif

/* The number of kinds; 0 if these bytes are no block. */
RIG_NODISCARD static inline size_t rig_block_kinds(const uint8_t* block, size_t block_size)
{
    if (block_size != RIG_BLOCK_SIZE || block[RIG_KIND_COUNT_AT] < RIG_MIN_KINDS ||
        block[RIG_KIND_COUNT_AT] > RIG_MAX_KINDS)
        return 0;
    return block[RIG_KIND_COUNT_AT];
}

/* The number of joints; 0 if these bytes are no block. */
RIG_NODISCARD static inline size_t rig_block_joints(const uint8_t* block, size_t block_size)
{
    if (block_size != RIG_BLOCK_SIZE || block[RIG_JOINT_COUNT_AT] < RIG_MIN_JOINTS ||
        block[RIG_JOINT_COUNT_AT] > RIG_MAX_JOINTS)
        return 0;
    return block[RIG_JOINT_COUNT_AT];
}

/* What is known of a joint, which is what is known of all joints that are one with it. */
struct rig_known {
    /* The smallest joint that it is one with: the same for two joints exactly when they are known to be one. */
    struct rig_joint smallest;
    /* 1 if none is known. */
    uint8_t kind;
    /* For each link the smallest of the joints that it leads to, or RIG_NOT_KNOWN. */
    uint8_t links[RIG_LINKS];
};

/*
 * Reads what is known of a joint; gives false, and leaves it as it was, if there is no such joint or if what the block
 * says of it is out of range, as it never is in a good block.
 */
RIG_NODISCARD static inline bool rig_block_joint(const uint8_t* block, size_t block_size, struct rig_joint joint,
                                                 struct rig_known* known)
{
    const size_t joints = rig_block_joints(block, block_size);
    const size_t kinds = rig_block_kinds(block, block_size);
    const uint8_t* row;
    size_t smallest;
    size_t link;
    if (kinds == 0 || joint.number >= joints)
        return false;
    smallest = block[RIG_CLASSES_AT + joint.number];
    if (smallest > joint.number || block[RIG_CLASSES_AT + smallest] != smallest)
        return false;
    if (block[RIG_KINDS_AT + smallest] == RIG_KIND_NONE || block[RIG_KINDS_AT + smallest] >= kinds)
        return false;
    row = block + RIG_LINKS_AT + RIG_LINKS * smallest;
    for (link = 0; link < RIG_LINKS; link++)
        if (row[link] >= joints && row[link] != RIG_NOT_KNOWN)
            return false;
    known->smallest = rig_joint_of(smallest);
    known->kind = block[RIG_KINDS_AT + smallest];
    memcpy(known->links, row, RIG_LINKS);
    return true;
}

#ifdef __cplusplus
}
#endif

#endif
