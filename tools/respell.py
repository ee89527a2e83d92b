#!/usr/bin/env python3
"""Respells the repository's own definitions and lemmas: words in snake case.

Run once, at the top, after port.py. Names of functions, of files and of what Rattle makes keep their spelling.
Two names that would fall together get two names: see APART.
"""
import glob
import re

APART = {
    'bit-of': 'bit_of_bits',        # beside the definition bit_of
    'reading-at': 'reading_at_back',    # beside the definition readingAt
    'high-of': 'high_of_record',    # beside the definition highOf, of numbers
    'low-of': 'low_of_record',      # beside the definition lowOf, of numbers
    'change-of': 'change_event',    # beside the definition changeOf
    'feed-of': 'feed_event',        # beside the definition feedOf
    'fed_by': 'fed_by_answer',      # beside the definition fedBy
}

# the other names, in their old spelling
NAMES = """
add-after after-put after-take all-at-key all-enter all-joined all-leave all-puts all-report all-turn allDigits
answer-there answerTo append-index append-placed append-rows asReading at-key-at at-key-none away-is back-each
back-other back-part back-same back-spare back-used beside-heap beside-index beside-more beyond-heap beyond-kept
beyond-order beyond-sound bit-at-small bit-small bit-there book-from book-same bookOf books-more both-more
bounds-held bounds-law bounds-none by-adds by-bounds by-live by-tag bytes-keys bytes-samples ceiling-empty
ceiling-full ceiling-more ceiling-rule change-given changeOf changed-is changed-seated changed-turning char-digit
charOf clean-there column-here column-kept column-other column-read command-is commandOf common-append common-grows
common-next common-record count-read counts-set cut-more cut-taken digitOf digits-front digits-rest digitsOf
down-again down-broke down-done down-stop drop-picked each-changed each-opened edge-above edge-below edge-enter
empty-seats enter-at entry-low eventOf exact-root fair-more faultNumber faultValues fed-more fed-none fed-stop fedBy
feedKeys feedOf fewer-than first-of-1 first-of-2 first-of-3 fits-put floor-by floor-kept four-at four-back four-read
from-four from-opening from-two front-all front-entry front-more gap-edge gap-removed gap-start gap-unheld has-times
head-accepted head-back head-given held-at-key held-bounds held-enter held-leave held-puts held-some high-in
high-other holds-held idle-put idle-take in-from ins-sum is-low isDigit kept-each kept-opened kept-take key-asym
key-trans keys-are keys-end keys-few keys-more keysAt keysFrame keysTaken kind-small lazy-floor lazy-least
least-below least-from least-from-above least-from-at least-from-below least-from-ge least-from-le least-from-one
least-is leave-at leave-cases leave-least leaves-are leaves-same ledger-lawful left-least leftKeys length-at-key
length-bytes length-enter length-keys length-leave length-line length-picked length-putMid length-samples
lent-end lent-few lent-long lent-part lent-room lent-seats lent-small lent-used lent-wide less-is lex-asym lex-le
lex-least lex-never lex-raise lex-tie lex-trans line-true lineOf-append map-byte map-there mapBytes mapOf
never-short node-forth none-refilled nth-none nth-some octets-samples once-at one-day-frame one-keys-frame
one-length one-opens one-other one-position one-readings-frame only-least openRefusal opened-book opened-order
opened-sound order-moved order-turning other-puts other-total other-used out-counts out-leaves out-seats outs-put
outs-take over-after over-answer overShare part-here part-long part-next part-other part-spare perm-apart
perm-append perm-moved perm-none perm-once perm-where picked-append picked-cons picked-inserted picked-other
picked-removed placed-kept present-there presents-end presents-here presents-missing presents-next push-light
push-sound push-stands put-answer put-at put-carried put-cases put-done put-good put-new put-ok put-rule put-there
rare-record reached-beside reached-more reached-opened read-ceiling read-long read-order read-room read-rows
read-seats reading-in reading-out reading-read readingAt readingBytes readingsFrame readingsOf record-read
refresh-heavy refresh-less refresh-seated refresh-sound refresh-stands refused-after refused-narrow refused-short
refused-wide replace-placed replace-rows replaced-rows report-law reportAnswer reportOf reports-lawful rest-entry
retract-after right-least rise-end rise-step rise-stop root-from root-least root-leaves row-set rows-entry rows-kept
rows-length rows-replace rule-full rule-held rule-room same-both same-count-sound same-four same-is same-key-order
same-places same-product same-share same-shuffled same-sooner sameChange sampleBytes samples-are samples-end
samples-here samples-missing samples-next seats-same second-of-1 second-puts second-records second-takes seen-set
seen-shuffled set-swapped share-left sink-end sink-step sink-stop size-more slack-put slack-take small-set some-bit
some-samples sooner-weak sorted-at sorted-at-key sorted-enter sorted-leave sorted-new sorted-over sorted-put
stands-shuffled step-up sum-enter sum-floor sum-lowered sum-put sum-raised summaryOf swap-shuffled table-changed
tag-forth take-answer take-answered take-append take-carried take-good take-moved take-of take-ok take-picked
take-removed take-rule taken-done taken-other takenBy tells-beside tells-fresh tells-other tells-raised then-call
then-put then-shuffled then-take times-append times-inserted times-removed total-one total-same total-two totalAt
traced-fresh traced-more turning-root two-least two-tags two-wide unheld-leave up-again up-broke usedAt usedOf
verbOf where-is widthLine with-book write-all written-seated written-turning
""".split()


def snake(name):
    return re.sub('([a-z0-9])([A-Z])', lambda m: m[1] + '_' + m[2].lower(), name).replace('-', '_')


WORDS = {**{name: snake(name) for name in NAMES}, **APART}
# a word of antt; in a .rt file such words stand in clauses and ghost items alone
WORD = re.compile(r"[^\s(){}\[\].,;:=|«»\"]+")


def respell(path):
    with open(path, encoding='utf-8') as file:
        text = file.read()
    new = WORD.sub(lambda m: WORDS.get(m[0], m[0]), text)
    if new != text:
        with open(path, 'w', encoding='utf-8') as file:
            file.write(new)
    return new != text


if __name__ == '__main__':
    paths = sorted(p for end in ('antt', 'rt') for p in glob.glob(f'crates/**/*.{end}', recursive=True))
    print(sum(respell(path) for path in paths), 'files respelled')
