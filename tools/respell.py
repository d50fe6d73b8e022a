#!/usr/bin/env python3
"""Respells the repository's own names as today's Rattle spells them; run once, after the kit's port.py, at the top.

usage: python3 tools/respell.py

A definition, lemma, field or local name with dashes gets underscores; a fact or a type, which begins with a capital, gets
upper camel case. The names stand in NAMES. They are turned in the .antt files of specs/ and proofs/, in the .rt files of src/
outside of string literals, and in the .edit files of must-fail/ and planted/. A name that Rattle makes, such as a goal's, is
longer than any of these and keeps its dashes.
"""

import os
import re

NAMES = """
All-kept Always-sound Copies-read-back Drum-keeps Fits-in Frame-read-back Frames-read-back Kept-or-word Moving-kind
One-line Register-within So-far Step-answer Symbols-agree Told-cause Told-ending Told-report Turn-is-steps
Two-frames-read Writes-words add-undone address-of address-outside address-sum advance-undone after-address
after-buffer after-here after-length after-of after-other after-over after-short ahead-is all-came all-kept all-went
and-true answer-below answer-here answer-of answer-other any-all any-and any-decides any-more any-never any-none-at
any-not as-program asks-busy at-buffer at-busy at-e at-end at-judged at-k at-limits at-lock at-plugged bank-after
bank-answer bank-put bank-then before-end below-push below-replicate beside-all beside-more beside-set binary-cells
bound-number bound-words bounds-by buffer-answer buffer-back buffers-put busy-of by-bounds by-cells by-check by-ending
by-head by-indexed by-others by-refusal by-store by-words c-fits capacity-small carried-out carried-ready
carried-world cause-by cause-name cause-of cell-of cells-bounds cells-path cells-small changed-sound changes-try
control-cells count-negated count-on counted-down counts-more counts-orders cyclic-left cyclic-right cyclic-within
damaged-cells damaged-less damaged-more damaged-only device-back device-put device-there difference-undone done-by
done-one double-suc drop-put drum-keeps drum-of each-false each-sound each-true effect-length end-eighth ending-by
ending-or-count ending-same endings-of enough-by erase-first error-of exit-cells fetch-31 fetch-32 fetch-back
fetch-half fetched-31 fetched-back few-left fill-answer first-failing first-front first-none first-number foreseen-ok
form-length found-device frame-for from-to gather-add gather-below gather-nothing go-if groups-meet half-fits half-way
halved-below halved-below-stays halved-stays handed-back hd-is head-answer head-within held-as held-there i-fits
image-word image-words in-neg in-turn in-turn-append in-turn-length in-turn-more in-turn-none indexed-address
indexed-cells indexed-words is-busy is-moving is-stopped is-there join-on join-undone joined-behind joined-more
joint-half jump-cells jump-count jumped-on-count keeps-after keeps-changes keeps-left keeps-more keeps-orders
keeps-try kept-owner kind-of kq-decoded kq-refused leb-scale left-past length-fits length-put-part length-spread
length-stacked length-stored length-unpacked like-same limits-wrong line-back line-device line-if line-locked
line-locks line-put line-there line-work lines-changed lines-locked links-fit links-left links-needed links-room
links-there locked-at locked-between locked-by locked-byte locked-lines locks-here lower-half ltb-scale m-fits
made-agrees mapped-all mapped-more meet-by meet-not message-end most-of-word most-on move-by move-cells move-changes
move-done move-kept move-refused moves-words n1-fits neg-lowest neg-lowest-overflows neg-undone negate-undone
negative-undone nest-fits nest-left nest-links nest-move nest-needed nest-room nest-there never-none no-cause
no-devices no-lock no-qs none-moving not-once not-true-false nothing-after nothing-changed nothing-there nth-map
occurs-hit occurs-miss occurs-more occurs-none occurs-push on-indexed on-q on-regs on-state once-below one-changed
or-false order-bounds order-byte order-changes order-here order-in order-length other-bounds out-after out-cells
out-neg out-pos outside-past outside-scaled overflow-if own-path owned-after owned-put owner-is packed-append
packed-below packed-symbols packed-unpacked part-laws part-other part-put part-undone part-word part-written past-neg
past-pos pile-fits place-laws place-outside plugged-whole pop-link printed-char program-at punch-of push-link
push-number put-at put-half put-lines put-others put-own put-part put-part-outside put-part-twice put-put put-q
put-ready puts-half q-at q-cells q-decoded q-of q-put q-refused quiet-unlocked read-after read-back-is read-changed
read-effect read-fine read-laid read-last read-line read-once read-ready read-to-end reader-of reads-back reads-by
ready-more ready-or-stopped ready-orders ready-told ready-try refused-kept refused-write register-cells
register-effect register-length register-passes register-within regs-held released-quiet report-by report-of
retreat-undone right-is-left right-past ring-taken round-inside round-past row-cells row-with said-agrees same-cells
same-command same-difference same-form same-locked same-negative same-order same-outside same-work says-operand
scaled-neg scaled-pos seek-after seek-answer seek-changed seek-effect seek-of seek-ready seek-there seek-through
seen-small sees-lock sees-order sees-outside send-append send-nothing send-on set-number set-update shift-by-c sign-in
signed-N1 signed-N2 signed-inside signed-wrap sixteen-zeros slot-put small-drum small-unpacked some-none sound-cells
sound-frame sound-less span-most split-undone spread-one stacked-nth stacked-past stacked-pop stacked-push
standing-after standing-set state-is state-of step-checked step-checks step-granted step-on step-passes step-token
step-told step-tries step-world steps-are steps-stay still-gather still-on stop-after stop-at stop-not-damaged stop-of
stop-or-count stopped-in store-address stored-confined stored-none sub-undone sum-high sum-masked sum-undone
symbol-below symbols-packed symbolsOf table-agrees table-answer tally-all tally-cons tally-most tally-none tally-once
tape-ends token-of touches-lock transfer-bounds transfer-cells transfer-changes tried-after tried-by tried-in tried-is
turn-by-steps turn-is-steps turn-report twice-device twice-work two-and-five two-frames two-words unary-cells
under-head unpacked-more upper-half violation-name violation-of violation-stops with-a with-buffer with-c with-h
with-i with-k-q with-line with-links with-lower with-m with-n with-nest with-overflow with-own with-owner with-place
with-q with-q-a with-q-e with-qs with-registers with-sign with-test with-upper with-work without-ring word-alone
word-bounds word-is word-last word-packed word-part words-fit words-locked work-by work-of work-there world-at
world-of wrap-add wrap-below wrap-is wrap-mul wrap-mul-left wrap-narrow wrap-neg wrap-same wrap-signed wrap-sub
wrap-turns write-after write-answer write-cases write-changed write-effect write-of write-on write-to-end writes-words
wrote-put
""".split()


def respelled(name):
    if name[0].isupper():
        return "".join(part[0].upper() + part[1:] for part in name.split("-"))
    return "symbols_of" if name == "symbolsOf" else name.replace("-", "_").lower()


NEW = {name: respelled(name) for name in NAMES}
WORD = re.compile(r"(?<![\w\u2080-\u2089'\u2115\u2124-])(" + "|".join(sorted(map(re.escape, NAMES), key=len, reverse=True)) + r")(?![\w'\u2115\u2124-])")
STRING = re.compile(r'"(?:[^"\\]|\\.)*"')


def turned(text):
    return WORD.sub(lambda m: NEW[m.group(1)], text)


def outside_strings(text):
    out, at = [], 0
    for m in STRING.finditer(text):
        out += [turned(text[at : m.start()]), m.group(0)]
        at = m.end()
    return "".join(out + [turned(text[at:])])


def files():
    for folder, dirs, names in os.walk("crates"):
        dirs[:] = sorted(d for d in dirs if d not in ("out", "target"))
        for name in sorted(names):
            if name.endswith((".antt", ".rt", ".edit")):
                yield os.path.join(folder, name)


def main():
    count = 0
    for path in files():
        with open(path, encoding="utf-8") as f:
            old = f.read()
        new = turned(old) if path.endswith(".antt") else "\n".join(map(outside_strings, old.split("\n")))
        if new != old:
            with open(path, "w", encoding="utf-8") as f:
                f.write(new)
            count += 1
    print(f"respell: {count} files")


main()
