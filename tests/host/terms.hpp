// Terms as texts, good ones and damaged ones; and blocks that are trees from a joint, or nearly so.

#ifndef HOST_TERMS_HPP
#define HOST_TERMS_HPP

#include "blocks.hpp"

#include <array>
#include <string>

namespace host {

inline Bytes bytes_of(const std::string& text) { return Bytes(text.begin(), text.end()); }
inline std::string text_of(const Bytes& bytes) { return std::string(bytes.begin(), bytes.end()); }

// ------------------------------------------------------------------------------------------------------------ texts

// The signs of terms, and one that stands in none.
inline const std::string term_signs = "@:(),=>0123456789";
inline const std::string few_signs = "@:(),=>019 ";

// What a random term is like.
struct TermShape {
    size_t n;
    size_t v;
    size_t deepest = deepest_term; // of its innermost terms
    size_t most_arguments = 4;
    size_t most_terms = 40; // once so many stand there, no more arguments are begun
    size_t odd_numbers = 0; // in percent: numbers that may be out of range
};

class TermMaker {
public:
    TermMaker(const TermShape& its_shape, Random& its_random) : shape(its_shape), random(its_random) {}

    std::string term(size_t depth = 1)
    {
        terms++;
        std::string text = "@" + number_below(shape.v);
        if (random.chance(50))
            text += ":" + number_below(shape.n);
        if (depth >= shape.deepest || terms >= shape.most_terms || random.chance(depth == 1 ? 5 : 35))
            return text;
        text += "(";
        const size_t arguments = random.between(1, shape.most_arguments);
        for (size_t i = 0; i < arguments; i++)
            text += (i == 0 ? "" : ",") + number_below(links_per_joint) + "=>" + term(depth + 1);
        return text + ")";
    }

private:
    std::string number_below(size_t bound)
    {
        if (random.chance(shape.odd_numbers))
            return std::to_string(
                random.pick_of<size_t>({bound, bound + 1, 99, 100, 255, 256, 999, random.below(1000)}));
        return std::to_string(random.below(bound));
    }

    const TermShape shape;
    Random& random;
    size_t terms = 0;
};

inline std::string random_term(const TermShape& shape, Random& random) { return TermMaker(shape, random).term(); }

// Terms in a row, each the only argument of the one before; `innermost` stands behind the last one's joint.
inline std::string deep_term(size_t depth, const std::string& innermost = "", size_t link = 1)
{
    std::string text = "@0";
    for (size_t i = 1; i < depth; i++)
        text += "(" + std::to_string(link) + "=>@0";
    return text + innermost + std::string(depth - 1, ')');
}

// A term that says so many facts, one for its kind, if it has one, and one or two for each argument.
inline std::string term_of_facts(size_t facts, bool with_kind, bool with_inner_kinds)
{
    std::string text = with_kind ? "@0:1" : "@0";
    size_t said = with_kind ? 1 : 0;
    while (said < facts) {
        text += (said == (with_kind ? 1u : 0u) ? "(" : ",") + std::string("1=>@0");
        said++;
        if (with_inner_kinds && said < facts) {
            text += ":1";
            said++;
        }
    }
    return text + (text.find('(') == std::string::npos ? "" : ")");
}

// One byte deleted, replaced or put in.
inline void damage_text(std::string& text, Random& random)
{
    const auto sign = [&] {
        return random.chance(80) ? random.pick(term_signs) : random.chance(50) ? ' ' : static_cast<char>(random.byte());
    };
    const size_t at = random.below(text.size() + 1);
    switch (at < text.size() ? random.below(5) : 2) {
    case 0:
        text.erase(at, 1);
        break;
    case 1:
        text[at] = sign();
        break;
    case 2:
        text.insert(at, 1, sign());
        break;
    case 3: // ends early
        text.resize(at);
        break;
    default: // a piece of it once more
        text.insert(at, text.substr(at, random.between(1, 8)));
        break;
    }
}

// -------------------------------------------------------------------------------------------------- blocks and trees

inline Bytes fresh_block(const Kinds& kinds, size_t v)
{
    Bytes block(block_length, 0);
    block[0] = static_cast<Byte>(kinds.n);
    block[1] = static_cast<Byte>(v);
    for (size_t joint = 0; joint < v; joint++) {
        block[classes_at + joint] = static_cast<Byte>(joint);
        block[kinds_at + joint] = kind_any;
        for (size_t l = 0; l < links_per_joint; l++)
            block[links_at + joint * links_per_joint + l] = not_known;
    }
    std::copy(kinds.table.begin(), kinds.table.end(), block.begin() + table_at);
    return block;
}

inline Byte& link_of(Bytes& block, size_t joint, size_t l) { return block[links_at + joint * links_per_joint + l]; }
inline void set_kind(Bytes& block, size_t joint, size_t kind) { block[kinds_at + joint] = static_cast<Byte>(kind); }
inline void set_link(Bytes& block, size_t joint, size_t l, size_t end)
{
    link_of(block, joint, l) = static_cast<Byte>(end);
}

// A block, and the joint from which it is a tree or nearly one.
struct Tree {
    Bytes block;
    size_t root = 0;
    std::vector<size_t> in_it; // the joints of the tree, the root first
};

// A tree of so many joints, the others with nothing known of them. Each new joint hangs on one before it, mostly on the
// last, where rows are wanted, that is not too deep and has a link to give.
inline Tree random_tree(const Kinds& kinds, size_t v, size_t joints, size_t deepest, size_t rows, Random& random)
{
    Tree tree;
    tree.block = fresh_block(kinds, v);
    std::vector<size_t> order(v);
    for (size_t joint = 0; joint < v; joint++)
        order[joint] = joint;
    random.shuffle(order);
    tree.root = order[0];
    std::vector<size_t> depth(v, 1);
    for (size_t i = 0; i < joints; i++) {
        const size_t joint = order[i];
        if (random.chance(60))
            set_kind(tree.block, joint, random.between(1, kinds.n - 1));
        for (bool hangs = i == 0; !hangs;) {
            const size_t on = order[random.chance(rows) ? i - 1 : random.below(i)];
            const size_t l = random.below(links_per_joint);
            if (depth[on] >= deepest || link_of(tree.block, on, l) != not_known) {
                rows /= 2; // so that a full row is left at last
                continue;
            }
            set_link(tree.block, on, l, joint);
            depth[joint] = depth[on] + 1;
            hangs = true;
        }
        tree.in_it.push_back(joint);
    }
    return tree;
}

// Of these sizes a tree always has room: 16 links a joint, and a root that is 1 deep.
inline Tree random_tree(const Kinds& kinds, size_t v, Random& random)
{
    const size_t joints = random.chance(30) ? v : random.between(1, v);
    const size_t rows = random.pick_of<size_t>({0, 50, 90, 100, 100});
    return random_tree(kinds, v, joints, deepest_term, rows, random);
}

// A row of so many joints, and perhaps one more joint on the last but one.
inline Tree row_of(const Kinds& kinds, size_t v, size_t joints, Random& random)
{
    return random_tree(kinds, v, joints, joints, 100, random);
}

// One thing more that may be known: most of these make it no tree.
inline void unmake_tree(Tree& tree, const Kinds& kinds, Random& random)
{
    const size_t v = tree.block[1];
    const size_t joint = random.chance(70) ? random.pick(tree.in_it) : random.below(v);
    const size_t l = random.below(links_per_joint);
    switch (random.below(9)) {
    case 0: // any link more
        set_link(tree.block, joint, l, random.below(v));
        break;
    case 1: // a link to the root, at times the root's own
        set_link(tree.block, random.chance(50) ? tree.root : joint, l, tree.root);
        break;
    case 2: // a loop
        set_link(tree.block, joint, l, joint);
        break;
    case 3: // two links of one joint to one
        for (size_t other = 0; other < links_per_joint; other++)
            if (link_of(tree.block, joint, other) != not_known)
                set_link(tree.block, joint, l, link_of(tree.block, joint, other));
        break;
    case 4: // a link to a joint that another leads to
        set_link(tree.block, joint, l, random.pick(tree.in_it));
        break;
    case 5: // a kind of a joint that may not be reached
        set_kind(tree.block, random.below(v), random.between(1, kinds.n - 1));
        break;
    case 6: // a link less: what hung on it is not reached
        link_of(tree.block, joint, l) = not_known;
        for (size_t other = 0; other < links_per_joint; other++)
            if (random.chance(50))
                link_of(tree.block, joint, other) = not_known;
        break;
    case 7: { // a joint of which nothing is known, joined to one
        const size_t gone = v - 1;
        bool is_named = gone == tree.root || gone == 0;
        for (size_t from = 0; from < v; from++)
            for (size_t other = 0; other < links_per_joint; other++)
                is_named |= link_of(tree.block, from, other) == gone;
        if (is_named)
            break;
        tree.block[classes_at + gone] = random.byte_below(gone);
        tree.block[kinds_at + gone] = 0;
        for (size_t other = 0; other < links_per_joint; other++)
            link_of(tree.block, gone, other) = 0;
        if (tree.block[classes_at + tree.block[classes_at + gone]] != tree.block[classes_at + gone])
            tree.block[classes_at + gone] = 0;
        break;
    }
    default: // another root
        tree.root = joint;
        break;
    }
}

} // namespace host

#endif
