#!/usr/bin/env python3
"""Brings this repository's own names to the spelling of the installed Rattle.

usage: python3 tools/respell.py        at the top of the repository, once, after /opt/rattle/port/port.py

A definition or a lemma of specs/ and proofs/ is named in snake case, a type in upper camel case: `set-of` becomes
`set_of`, `Natural-form` becomes `NaturalForm`. Turned are the .antt files, the clauses and ghost items of the .rt
files, and names between backquotes in README.md and docs/. Left are comments, strings, the code of src/ and every name
that Rattle makes or that its library has. A second run changes nothing.
"""

import os
import re

NAMES = """
Accepted-exactly Accepted-is-written-back Accepted-within-limits Answer-exists Boundary-of-complement
First-faulty-record Identity-kept Largest-denominator Natural-form One-answer Opposite-denominators Push-moves
Reached-is-smallest Scores-ordered Sides-make-the-whole Unique-cut Within-lighter-side Written-in-bytes
Written-loads-as-itself a-bit accepted-exactly accepted-is-written-back accepted-within-limits across-same
add-answer add-keeps adds-le after-edit ahead-le alike-more all-faultless all-nodes all-pipes along-pipes
answer-exists answered-err answered-ok arc-at at-forth at-lighter at-most-once at-most-own at-still bad-at bad-ends
bad-found bad-marks bad-passed bad-pipe behind-nodes below-pairs below-plus below-same between-pop between-push
bit-small board-fault both-pass both-passed both-sides both-turned boundary-answer boundary-of-complement
buffer-fault by-pipes by-sides bytes-are capacity-same capped-all capped-more carried-across check-answer
chunked-front chunked-joined comes-to-end cost-across count-is count-le count-more cut-from cut-front cut-pair
cut-refusal difference-fits difference-is distance-fits each-faultless edit-refusal even-reverse exactly-one
fault-at fault-if fault-text few-pipes file-fault file-of file-pasted file-size first-contained first-fault
first-faulty-record first-file-fault fits-push fits-removed fits-set flow-of from-source from-sources gained-inside
goes-past good-ends good-pipe good-pipes grown-before grown-here grown-other grown-set grown-still half-a-mark
has-cons has-none header-fault header-size identity-kept indexed-alike indexed-front is-mark join-answer join-keeps
joined-chunked largest-denominator latest-alike latest-before latest-here latest-none latest-some layer-name
length-file length-joined length-nodes length-pipes listed-all listed-none lost-inside mark-at mark-place
marks-fault marks-faultBy marks-of max-arcs max-capacity max-cost max-nodes max-pipes max-vertices max-weight
min-cost min-weight more-inside most-denominator most-le natural-form net-of network-in new-paired next-at next-is
no-arc no-header-fault no-node-fault no-nodes no-pipe no-pipe-fault no-pipe-fault' node-accepted node-added
node-again node-count node-count-is node-count-place node-due node-out node-place node-record node-records node-size
nodes-are nodes-fault nodes-upto none-closed none-in-all none-outside none-some not-bad not-differs not-outside
odd-reverse old-paired one-long one-pipe only-a-mark only-there opposite-denominators other-mark outside-limits
own-denominator pair-adds pair-sums pairs-at pairs-more pairs-none passed-after pasted-all pasted-more pasted-none
paths-more paths-on paths-start pipe-accepted pipe-again pipe-count pipe-count-is pipe-count-place pipe-due
pipe-fault pipe-faultless pipe-fits pipe-from pipe-joined pipe-place pipe-record pipe-records pipe-same pipe-size
pipes-added pipes-again pipes-are pipes-fault pipes-more pipes-next pipes-place pipes-start pipes-upto
positive-denominator push-moves pushed-alike pushed-fits pushed-moves pushed-others pushed-reverse pushed-small
pushed-total quotient-answer reached-is-smallest reached-still refuse-at refuse-if relative-answer remove-answer
remove-keeps residual-le reverse-other same-inside same-marks same-value scanned-err scanned-more scanned-none
scanned-ok scores-ordered sent-le sent-more set-kept set-of sets-out side-nodes side-separates sides-make-the-whole
sink-of sinks-added sinks-more sinks-next sinks-start size-due slot-left smallest-cut smallest-set solver-fault
some-bad-pipe sources-added sources-more sources-start step-before step-under sum-in sum-in-same sumBy-pairs
sumBy-same table-front tally-all tally-more tally-none to-sink to-sinks too-many-pipes total-capacity turns-back
turns-to two-long unique-cut version-place visit-at visit-under visits-on weigh-answer weigh-keeps weight-answer
weight-fault weight-faultless weight-fits weight-from weight-in weights-again when-le when-none when-plus with-pipes
with-sinks with-sources within-lighter-side within-limits without-first write-answer written-fits written-in-bytes
written-loads-as-itself written-nodes written-pipes zero-sum
""".split()

TOKEN = re.compile(r"[A-Za-z_\u2115\u2124'0-9\u2080-\u2089]+(?:-[A-Za-z_\u2115\u2124'0-9\u2080-\u2089*+]+)+")
ANTT = re.compile(r'"[^"\n]*"|--[^\n]*')
RUST = re.compile(r'"(?:[^"\\]|\\.)*"|//[^\n]*', re.S)
QUOTED = re.compile(r"`[^`\n]*`")


def spelling(name):
    """The new spelling of a name with dashes."""
    words = name.replace("sumBy", "sum-by").replace("faultBy", "fault-by").split("-")
    if name[0].isupper():
        return "".join(word[0].upper() + word[1:] for word in words)
    return "_".join(words)


TABLE = {name: spelling(name) for name in NAMES}


def turned(text):
    return TOKEN.sub(lambda m: TABLE.get(m.group(), m.group()), text)


def outside(kept, text):
    """Turns what stands between the matches of the pattern."""
    parts, at = [], 0
    for m in kept.finditer(text):
        parts += [turned(text[at : m.start()]), m.group()]
        at = m.end()
    return "".join(parts) + turned(text[at:])


def respelled(path, text):
    if path.endswith(".antt"):
        return outside(ANTT, text)
    if path.endswith(".rt"):
        return outside(RUST, text)
    return QUOTED.sub(lambda m: turned(m.group()), text)


def files():
    for top, ends in (("crates", (".antt", ".rt")), ("docs", (".md",))):
        for folder, dirs, names in os.walk(top):
            dirs[:] = sorted(d for d in dirs if d != "out")
            yield from (os.path.join(folder, n) for n in sorted(names) if n.endswith(ends))
    yield "README.md"


def main():
    fall_together = len(TABLE) - len(set(TABLE.values()))
    if fall_together:
        raise SystemExit(f"respell: {fall_together} names fall together; nothing was written")
    count = 0
    for path in files():
        with open(path, encoding="utf-8") as f:
            old = f.read()
        new = respelled(path, old)
        if new != old:
            with open(path, "w", encoding="utf-8") as f:
                f.write(new)
            count += 1
    print(f"respell: {count} files changed")


if __name__ == "__main__":
    main()
