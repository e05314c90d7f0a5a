"""Brings the repository's own definitions and lemmas to the present spelling: definitions in snake case, lemmas and constructors with dashes.

It was run once, behind the toolchain's own script, on the repository in the older language; docs/PORT.md says when. Run at the top of such a tree: python3 respell.py
Functions of src/, strings, inputs and outputs keep their names. It stops before it changes anything, if a new name is in use where the old one is."""

import os
import re
import sys

# Definitions of specs/: they are cited in contracts too.
DEFINITIONS = """
all_good:allGood none_yet:noneYet
all_hold:allHold
refusal_of:refusalOf
below_of:belowOf cut_off:cutOff failing_layers:failingLayers failing_state:failingState is_due:isDue manner_of:mannerOf off_after:offAfter
data_sectors:dataSectors data_start:dataStart extent_of:extentOf first_homes:firstHomes record_of:recordOf second_homes:secondHomes third_of:thirdOf third_start:thirdStart
count_in:countIn image_layers:imageLayers image_state:imageState layers_of:layersOf sector_in:sectorIn
all_zeros:allZeros anchor_at:anchorAt decode_anchor:decodeAnchor decode_end:decodeEnd decode_head:decodeHead decode_header:decodeHeader decode_leader:decodeLeader
encode_anchor:encodeAnchor encode_end:encodeEnd encode_head:encodeHead encode_header:encodeHeader encode_leader:encodeLeader
four_bytes:fourBytes good_numbers:goodNumbers good_pages:goodPages head_of:headOf header_of:headerOf leader_of:leaderOf
is_name:isName letters_then_zeros:lettersThenZeros two_bytes:twoBytes version_of:versionOf
text_length:textLength
window_layers:windowLayers window_state:windowState
"""

# Lemmas, constructors and names of a proof: they stand in .antt files alone.
LEMMAS = """
in-order:in_order
never-other:never_other once-more:once_more
after-push:after_push cut-below:cut_below done-more:done_more done-none:done_none length-cut:length_cut length-run:length_run write-as:write_as
set-past:set_past
bytes-small:bytes_small marked-other:marked_other put_mid-written:putMid-written stored-is:stored_is written-is:written_is
both-true:both_true false-right:false_right open-at:open_at third-back:third_back two-back:two_back
before-on:before_on joined-bytes:joined_bytes none-left:none_left other-after:other_after other-byte:other_byte rest-all:rest_all
all-seen:all_seen at-here:at_here at-same:at_same at-set:at_set cut-stands:cut_stands ends-last:ends_last first-off:first_off goes-on:goes_on no-power:no_power no-second:no_second none-seen:none_seen read-off:read_off
part-cut:part_cut
"""

# A name is a whole word: letters, digits and marks, joined by single dashes.
WORD = re.compile(r"[A-Za-z_][A-Za-z0-9_']*(?:-[A-Za-z0-9_']+)*")


def pairs(table):
    return {old: new for new, old in (row.split(":") for row in table.split())}


def files(ends):
    for folder, folders, names in os.walk("crates"):
        folders[:] = [f for f in folders if f not in ("out", "target")]
        for name in names:
            if name.endswith(ends):
                yield os.path.join(folder, name)


def read(path):
    with open(path, encoding="utf-8") as file:
        return file.read()


def clashes(renamed):
    """The files in which a new name stands already, by the old name that would fall together with it. A function's own folder of proofs names the function, which is no definition."""
    back = {new: old for old, new in renamed.items()}
    for path in files((".antt",)):
        for word in set(WORD.findall(read(path))):
            if word in back and word not in path.split(os.sep):
                yield f"{path}: {word} is in use, and {back[word]} would be spelled so"


def respell(path, renamed):
    text = read(path)
    turned = WORD.sub(lambda m: renamed.get(m[0], m[0]), text)
    if turned != text:
        with open(path, "w", encoding="utf-8") as file:
            file.write(turned)


def main():
    definitions, everything = pairs(DEFINITIONS), pairs(DEFINITIONS + LEMMAS)
    found = sorted(clashes(everything))
    if found:
        print("\n".join(found))
        return 1
    for path in files((".rt",)):
        respell(path, definitions)
    for path in files((".antt",)):
        respell(path, everything)
    return 0


if __name__ == "__main__":
    sys.exit(main())
