#!/usr/bin/env python3
"""Respells the repository's definitions and lemmas: words in snake case, with no capital and no dash inside.

usage: python3 tools/respell.py [FOLDER]     once, after /opt/rattle/port/port.py, at the top of the repository or in FOLDER

It goes by the names below. In proof files, definitions and clauses each stands as a whole word; behind a dot it is turned only
where it is a field of a record of the repository, since the check makes names such as `last-is` there. In comments, README.md
and docs/ only a name in backticks or one with a capital inside is turned. Functions of src/, strings, inputs and outputs keep
their names.
"""

import os
import re
import sys

# Definitions and lemmas.
NAMES = """
    a-listing accept-held accept-new acceptAll acceptedBy after-enter after-feed after-jobs after-over afterBy
    afterEnter afterFeed akin-moves all-below all-kept all-steps always-laid apart-entered apart-push apartWords
    append-few appended-held as-ends as-laid as-loops as-pairs at-end at-step at-word atJob atWork before-cases
    before-from before-other before-trans beforeBy begins-holds begins-kept begins-means begins-push begins-some
    beginsTwo beginsTwo-means begun-front begun-run beside-means besideOf between-at bit-and bit-low bit-none bit-one
    bit-or bit-other bit-small bondRefusal book-row book-steps causeNumber climbs-ascend closed-later closed-more
    closed-once closed-skip closed-whole codeOrder common-moves cond-push covered-new cut-due cut-name decides-along
    decides-but decides-neither decides-none decimal-plain declined-at declined-later declined-of declined-once
    diamondWords drawRefusal drawing-draws drawnOnce drawnTwice draws-checked draws-few draws-not draws-same
    draws-shortcut drew-same each-named each-push eachSet early-once early-or-jobs edge-feeder edge-fits edge-paired
    encode-push end-free end-says end-text end-word endKind endKind-more ends-here ends-holds ends-means ends-push
    endsEarlier endsEarlier-push enterRefusal entered-declined equal-holds equalJobs erased-lawful erased-length
    erased-next erased-sized event-is event-says eventIn eventWord every-at every-below every-decides every-from
    every-has every-step facts-move faultRefusal fed-bits fed-free fed-lacks fed-marked fed-once fed-open fed-self
    fed-some fedBook fedMark feedRefusal feeder-bits feeder-marked feeder-self feederMark feeders-open feeds-from
    feeds-holds feeds-later feeds-means feeds-moves feeds-once feeds-parts feedsBy feedsOf few-many first-free
    first-here first-none first-once first-opens first-stuck fits-from fits-to follows-means free-append free-map
    free-places from-fed from-lawful from-loops from-none from-open from-steps from-within front-jobs front-laid
    front-tells gathered-in goes-like goes-turn group-fed group-feeders group-feeds groupWords groups-more groupsWords
    grow-add grow-end grow-skip grow-start halfTurn has-means head-is head-says headWord held-means held-row heldBy
    high-other if-all if-and if-bool if-fits if-full if-imp if-listed if-paired if-touches in-bit in-dec in-front
    in-gathered in-half in-or-l in-or-r is-between is-letter is-name-prop isName job-at jobWords jobs-push jobs-small
    judgeOf keeps-means kept-all kept-few kept-or-left known-plain laid-push last-free last-holds last-opens lastBook
    late-head late-stop latest-empty lead-again lead-late leads-means leadsOf letter-is letter-state lexical-both-end
    lexical-equal lexical-first-ends lexical-laws lexical-same lexical-second-ends lexical-step lexical-swaps
    lexical-transitive line-due line-end line-end-is line-is line-parts line-push line-run line-state line-tells
    line-turn listed-from listed-moves listed-to listing-checked listing-moves loop-kind loop-plain loop-text
    loopFields loopLines loopWord loopWords looping-agree looping-holds looping-same loops-free loops-paged loops-same
    loops-shown loops-tell loose-head loose-small low-other low-set lowest-homeless ltb-more main-law map-few
    map-firsts map-map map-one map-tell marked-fed marked-feeder memoryOf moved-listing moves-feeds moves-kin
    name-bytes-push name-line name-of-name name-of-text name-parts-nothing name-plain name-space name-text nameByte
    nameBytes nameOrder nameText named-all named-plain named-tell named-unmarked names-tell near-means net-agree
    net-same net-within next-holds next-kept next-means next-push ninth-turn none-push none-taken noneOf not-both
    not-held number-text numbered-once of-jobs of-open of-void ofBook ofJob off-roster on-drop on-from on-front
    on-gives on-roster one-drawing one-letter one-listing one-lowest one-memory one-net ones-in only-drew only-lists
    only-told onlyAfter onlyAfterBy onlyBefore onlyBeforeBy openBook or-in or-one other-digit other-more
    page-tells-net pageRefusal pages-tell pairs-across pairs-fed pairs-feeders paste-head place-few place-holds
    place-plain place-shown place-tells place-words placeLine placeLines placePairs placePoints placeWords
    places-checked places-few places-free places-low places-more places-paged places-tell placesWords points-across
    points-even points-fed points-feeders position-below position-passes precedes-means put-loops put-steps puts-digit
    puts-more puts-same putting-left putting-taken ranOut read-events read-jobs reading-end reading-front reading-no
    reading-start reading-yes reads-too reduced-all refusalOf rest-free rest-marked rest-set rest-tells rising-at
    roster-lawful row-none row-past row-set rows-held run-exact run-starts run-stops runs-all runs-begun runs-event
    runs-head runs-job runs-some runs-written same-agree same-decides same-front same-is same-job same-loops
    same-steps same-told scan-at scan-begun scan-end scan-letters scan-sound scan-whole seat-same seatWord seated-not
    seats-pass seats-same seats-take seeded-at seeded-kept seeded-more seeded-skip seen-holds seen-kept seen-means
    seen-once set-passes sets-append shifted-more shortcutWords side-shown sideMark sidePairs sidePoints sides-checked
    sides-low sides-tell sidesBy sits-decides sits-same sits-shown sitsBy sized-more sized-push small-tail some-gives
    some-last some-map some-means some-point some-push sorted-fresh space-due space-is space-state space-turn
    spaced-append spaced-push spaced-run spelled-token stands-is stands-too standsBy step-at stepWords stepped-all
    stepped-push steps-more stop-good stop-sound stopRefusal stripped-append stripped-events stripped-push subst-one
    t-event t-head t-longer t-more t-next t-other t-room tail-run tallies-end tallies-event tallies-whole tallies-word
    there-is-one third-moves those-all those-at those-few those-more those-same those-some those-tell three-means
    three-push three-some told-letter told-line-end told-listed told-many told-once told-short told-space told-written
    touches-from touches-to turn-declined turn-entered turn-good turn-means turn-sound turned-paired turned-test
    two-paired two-test unfinished-viable unless-empty unless-empty-length unless-empty-sized unless-empty-some
    unless-filler unless-filler-append unless-same unless-same-length unless-same-push unlisted-once unrelated-moves
    unrelatedBy unrelatedOf unseated-same used-is void-laid void-open void-same voidRefusal when-added when-joined
    whole-viable with-filler with-point without-length without-looping without-none without-push word-kind words-paged
    words-shown words-tell wordsBy written-append written-job written-push written-run wrong-at wrong-here wrong-still
""".split()

# Fields of records in specs/ and proofs/.
FIELDS = """
    are-names before-is beside-is earlier-is equal-is-same feeds-is first-is first-within firstSteps followed-is
    kin-is laid-is last-is last-short lastSteps latest-is leads-is looping-is loops-short loops-within no-job of-apart
    of-choice of-diamond of-halfTurn of-homeless of-joined of-listed of-round of-seated onlyAfter-is onlyBefore-is
    places-few places-neat places-within precedes-is precedesHeld-is same-is-equal sameEnds sameFeeds sameKin
    sameLoops sameSeen seen-is seen-short seen-within seenSteps sides-joined stands-is steps-are steps-stay
    unrelated-is
""".split()

# Turned by port.py already, but for what pages say of them.
TURNED = """
    after-is agree-same ahead-of and-in as-first as-long as-written at-byte at-every at-n at-new at-old before-self
    bit-high bit-in bool-same byteOf closed-at closed-of codeOf covers-kept end-is endIn endWord ends-is ends-some
    few-words first-holds first-short firstOf follows-is from-first from-last from-places from-row goes-on groups-none
    half-pow has-kept has-one if-some in-and in-one in-row in-small inside-of is-name is-open is-same kept-same
    kept-trans kindOf laid-kept last-within listed-more loops-is map-same nameOf next-more no-line no-longer no-loop
    no-more no-room no-size none-first none-more not-short numberOf numbered-is numbers-more odd-byte of-none of-one
    one-answer one-in one-list one-more partOf pieces-more places-same placesBy puts-none puts-word ran-out rest-more
    returns-is row-below row-of rows-few run-at run-holds run-more run-none run-on run-out run-past runs-append
    same-byte same-code same-from same-kept same-left same-low same-more same-name same-number same-parts same-place
    same-points same-true scan-good scan-runs shifted-start sides-apart some-below some-first sorted-more t-same
    then-by true-same turn-is turnOf up-to viewOf where-found wordIn wordOf written-is wrong-word
""".split()

# A lemma that would have the name of a definition, of a word of the library or of a function, and so gets another.
OTHER = {
    "name-text": "name_text_lem",
    "same-loops": "same_loops_lem",
    "place-words": "place_words_lem",
    "after-enter": "after_enter_lem",
    "after-feed": "after_feed_lem",
    "bit-and": "bit_and_lem",
    "bit-or": "bit_or_lem",
    "end-word": "end_word_lem",
    "is_name": "is_name_lem",
    "ran_out": "ran_out_lem",
    "of-open": "of_open_lem",
    "of-void": "of_void_lem",
    "ones-in": "ones_in_lem",
    "put-loops": "put_loops_lem",
    "put-steps": "put_steps_lem",
}

WORD = re.compile(r"[^\s(){}\[\];,.«»\"λ:`]+")


def snake(name):
    if name[0].isupper():
        return name.replace("-", "_")
    return re.sub(r"(?<=[a-z0-9])([A-Z])", lambda m: "_" + m.group(1).lower(), name).replace("-", "_")


TOP = {name: OTHER.get(name, snake(name)) for name in NAMES} | {name: OTHER[name] for name in ("is_name", "ran_out")}
FIELD = {name: snake(name) for name in FIELDS}
PAGE = {name: snake(name) for name in TURNED} | FIELD | TOP
del PAGE["is_name"], PAGE["ran_out"]


def turn(line, module):
    """A line of code: `module` says that its paths are those of modules, as in a use line."""

    def word(m):
        old = m.group(0)
        behind = m.start() > 0 and line[m.start() - 1] == "."
        if behind and not module:
            return FIELD.get(old, old)
        return TOP.get(old, FIELD.get(old, old))

    return WORD.sub(word, line)


def comment(text):
    """Words of a comment or a page: names in backticks, and those with a capital inside."""

    def quoted(m):
        return "`" + WORD.sub(lambda w: PAGE.get(w.group(0), w.group(0)), m.group(1)) + "`"

    text = re.sub(r"`([^`\n]+)`", quoted, text)
    return re.sub(r"\b[a-z][a-z0-9]*[A-Z][A-Za-z0-9]*\b", lambda m: PAGE.get(m.group(0), m.group(0)), text)


def line_of(line, mark):
    at = line.find(mark)
    if at < 0 or (at > 0 and mark == "//" and line[at - 1] not in " \t"):
        at = len(line)
    code, rest = line[:at], line[at:]
    module = bool(re.match(r"\s*(?:pub )?(?:ghost )?use ", code))
    return turn(code, module) + comment(rest)


def code_of(line):
    """A line of a .rt file or of an edit: strings stay."""
    if '"' in line and not re.match(r"\s*(?:requires|ensures|ghost)", line):
        return line
    return line_of(line, "//")


def is_turned(root):
    """Whether no definition or lemma has its old name, so that there is nothing to do: a second run would turn new names."""
    old = set(NAMES)
    for folder, dirs, files in os.walk(os.path.join(root, "crates")):
        dirs[:] = [d for d in dirs if d != "out"]
        for name in files:
            if name.endswith(".antt"):
                with open(os.path.join(folder, name), encoding="utf-8") as f:
                    if old & set(WORD.findall(f.read())):
                        return False
    return True


def main(root):
    if is_turned(root):
        print("respell: no name to turn", file=sys.stderr)
        raise SystemExit(2)
    for folder, dirs, files in os.walk(root):
        dirs[:] = sorted(d for d in dirs if d not in ("out", ".git", "tools"))
        for name in sorted(files):
            path = os.path.join(folder, name)
            if name.endswith(".antt"):
                each = lambda l: line_of(l, "--")
            elif name.endswith((".rt", ".edit")):
                each = code_of
            elif name.endswith(".md"):
                each = comment
            else:
                continue
            with open(path, encoding="utf-8") as f:
                old = f.read()
            new = "".join(each(l) for l in old.splitlines(keepends=True))
            if new != old:
                with open(path, "w", encoding="utf-8") as f:
                    f.write(new)


main(sys.argv[1] if len(sys.argv) > 1 else ".")
