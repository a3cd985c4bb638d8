#!/usr/bin/env python3
"""Respells the names of definitions, lemmas and goals: words in snake case, facts in camel case.

A dash stays where a lemma's name joins two names, as in length-encoded. It was run once, at the top of the repository,
after port.py, which respells the library's names and those of ours that a library had too. It is not to be run again:
what it turned too much, write-at and write-at-requires of put_all, was turned back by hand.
"""
import re
from pathlib import Path

# A name of ours, or one that the check makes of the source, whose dashes become underscores.
SNAKE = """
all-kept all-meant alone-one alone-run among-now below-room between-blanks blanks-after byte-range bytes-append bytes-are
bytes-more bytes-size bytes-within call-refusals close-refusals closed-held command-for command-written cut-example digit-after
drop-written end-command end-passes end-stands end-stuck every-bool every-ground every-preemption every-step example-events
example-file example-sound file-of first-unique flag-rules four-digits from-little from-little-fits gap-said goes-well
ground-number handler-rules in-file in-handler in-pass in-thread in-writer interrupt-rules irq-entry is-off-by-handler
is-off-by-thread is-on is-tidy is-to-schedule joined-push kind-digit layer-number leads-to little-four little-from long-now
long-run long-tidied meant-for meant-tidied most-events nmi-rules no-command none-changed number-after of-command of-command-is
one-refusal operand-bytes operand-proper operand-size operand-stands operand-with other-bytes over-is padded-form padded-now
pass-rules plain-now preemption-after put-held put-refusals refusal-ground refusal-number refusal-word refused-entry
refused-stuck rest-is said-blank said-digit same-command same-event same-run same-tidy same-to sched-switch sound-for
sound-passes sound-tidied stands-as step-number stops-at-end take-four take-two take-written thread-rules tidied-whole
tidy-again tidy-alone tidy-back tidy-file tidy-long tidy-reads tidy-same timed-with two-blanks untidy-le whole-example with-same
written-again written-inside written-more wrote-all

copy-from-slice from-le-bytes from-residual in-default put-all split-at to-le-bytes type-inv write-at write-end write-operand
""".split()

# Names of which only a part is respelled.
OTHER = {
    "None-of": "NoneOf",
    "operand-with-with": "operand_with-with",
    "four-at": "four_at",
    "four-at-gap": "four_at-gap",
    "if-events-ge-MOST-EVENTS": "if-events-ge-MOST_EVENTS",
    "if-four-at-events": "if-four_at-events",
    "if-not-is-tidy": "if-not-is_tidy",
    "in-err-at": "in_err-at",
    "in-err-command": "in_err-command",
    "in-err-next": "in_err-next",
    "in-err-timed": "in_err-timed",
    "in-ok-admit": "in_ok-admit",
    "in-ok-at": "in_ok-at",
    "in-ok-command": "in_ok-command",
    "in-ok-event": "in_ok-event",
    "in-ok-next": "in_ok-next",
    "in-ok-size": "in_ok-size",
    "in-ok-timed": "in_ok-timed",
    "is-tidy-requires": "is_tidy-requires",
    "loop-timed-preserved-then-not-is-tidy": "loop-timed-preserved-then-not-is_tidy",
    "overflow-add-at": "overflow_add-at",
    "overflow-add-count": "overflow_add-count",
    "returns-in-default": "returns-in_default",
    "returns-in-err-at": "returns-in_err-at",
    "returns-in-err-command": "returns-in_err-command",
    "returns-in-err-next": "returns-in_err-next",
    "returns-in-err-timed": "returns-in_err-timed",
    "run-end-end": "run_end-end",
    "run-end-from": "run_end-from",
    "run-end-to": "run_end-to",
    "write-at-requires": "write_at-requires",
}

NAMES = {name: name.replace("-", "_") for name in SNAKE} | OTHER
LETTER = r"[\w'-]"
PATTERN = re.compile(rf"(?<!{LETTER})({'|'.join(sorted(map(re.escape, NAMES), key=len, reverse=True))})(?!{LETTER})")


def main() -> None:
    for kind in ("specs/**/*.antt", "proofs/**/*.antt", "src/**/*.rt", "must-fail/*.edit"):
        for path in sorted(Path("crates").glob(f"*/{kind}")):
            text = path.read_text()
            respelled = PATTERN.sub(lambda found: NAMES[found[0]], text)
            if respelled != text:
                path.write_text(respelled)
                print(path)


main()
