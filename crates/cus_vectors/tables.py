"""Writes the entries that the program reads (`stdin`) and the answers that it must give (`stdout`).

It is written from the standards alone, with Python's whole numbers, strings of bits and floor division, and shares
nothing with the crates: eCPRI 2.0, section 3.1 (frames), O-RAN.WG4.CUS, clauses 7.5.2 and 7.5.3 (C-plane messages) and
Annex A (block floating point), and 3GPP TS 38.211, clauses 4.3 and 5.3.1 (frames and symbol starts); the generations of
fragments are those that `docs/DEFINITIONS.md` describes. No answer is the program's own.

    python3 tables.py
"""
import os
import random

ENTRIES, ANSWERS = [], []
WIDTHS = list(range(1, 17))
TS = 50_000
FRAME = 307200 * TS


def note(text):
    """A line that is printed as it is."""
    ENTRIES.append("# " + text)
    ANSWERS.append("# " + text)


def entry(line, answer):
    ENTRIES.append(line)
    ANSWERS.append(line.split()[0] + " " + answer if answer is not None else "line %d is no entry" % len(ENTRIES))


def symbols():
    """Starts of symbols: sums of the lengths of the symbols before."""
    note("The first and the last slot of a subframe with the normal cyclic prefix: each symbol has 2048 + 144 over 2^u Ts,")
    note("and the first of each half of the subframe 16 Ts more.")
    for u in range(5):
        count = 14 * 2**u
        lengths = [(2048 + 144) * TS // 2**u + (16 * TS if i in (0, 7 * 2**u) else 0) for i in range(count)]
        assert sum(lengths) == 30720 * TS
        starts = [sum(lengths[:i]) for i in range(count)]
        for slot in sorted({0, 2**u - 1}):
            for i in range(14):
                entry("symbol %d 0 0 %d %d" % (u, slot, i), str(starts[14 * slot + i]))
    note("The extended cyclic prefix at 60 kHz: a subframe has 4 slots of 12 symbols, each of (2048 + 512) / 4 = 640 Ts.")
    lengths = [(2048 + 512) * TS // 4] * 48
    assert sum(lengths) == 30720 * TS
    starts = [sum(lengths[:i]) for i in range(48)]
    for slot in range(4):
        for i in range(12):
            entry("symbol extended 0 0 %d %d" % (slot, i), str(starts[12 * slot + i]))
    note("In other subframes and frames.")
    for frame, subframe, slot, i in ((1, 0, 1, 11), (0, 9, 3, 11), (-1, 9, 3, 11), (99_999, 4, 2, 6)):
        entry("symbol extended %d %d %d %d" % (frame, subframe, slot, i), str(frame * FRAME + subframe * (FRAME // 10) + starts[12 * slot + i]))
    note("The first slot of the second half of a subframe: its first symbol is 16 Ts longer.")
    for u in range(1, 5):
        lengths = [(2048 + 144) * TS // 2**u + (16 * TS if i in (0, 7 * 2**u) else 0) for i in range(14 * 2**u)]
        for i in (0, 1, 13):
            entry("symbol %d 0 0 %d %d" % (u, 2**u // 2, i), str(sum(lengths[: 14 * 2**u // 2 + i])))
    note("By hand, from the lengths of the symbols: 30 kHz in frame 1 and before frame 0, 15 kHz in frame 1,000,000.")
    for name, ticks in (("1 1 0 0 1", 15_415_600_000), ("1 -1 9 1 13", -54_800_000), ("0 1000000 9 0 0", 15_360_013_824_000_000)):
        entry("symbol " + name, str(ticks))
    note("By hand: symbols of offset endpoints start by their own length, behind their timeOffset.")
    for name, ticks in (("12:0:3168 1 4 0 0", 21_504_000_000), ("12:0:3168 1 4 0 1", 22_891_200_000), ("4:100:3 0 0 8 2", 785_818_750)):
        entry("symbol " + name, str(ticks))
    note("There is no such symbol.")
    for name in ("extended 0 0 0 12", "extended 0 0 4 0", "extended 0 10 0 0", "2 0 0 0 14", "2 0 0 4 0", "0 0 0 1 0"):
        entry("symbol " + name, "none")


def numerologies():
    note("Spacing codes: 0 to 4 for 15 kHz to 240 kHz, and for an offset endpoint 12 and 14 for 1.25 kHz and 5 kHz besides.")
    for code in range(256):
        entry("numerology %d" % code, "code %d" % code if code < 5 else "none")
        entry("numerology %d:1:2" % code, "code %d offset 1 prefix 2" % code if code in (0, 1, 2, 3, 4, 12, 14) else "none")
    entry("numerology extended", "code 2")
    note("By hand: 14 symbols of 2192 Ts over 2^u, or 12 of 640 Ts, are the shortest slot; 13 of them and twice 16 Ts, or 11 of")
    note("640 Ts, or the timeOffset and 13 symbols of an offset endpoint, go up to the last symbol.")
    for name, symbols, slots, shortest, span in (
        ("extended", 12, 4, 7_680 * TS, 7_040 * TS),
        ("1", 14, 2, 767_200_000, 714_000_000),
        ("12:0:3168", 14, 1, 1_534_400_000, 18_033_600_000),
        ("4:100:3", 14, 16, 95_900_000, 83_321_875),
    ):
        entry("slots " + name, "symbols %d slots %d shortest %d span %d" % (symbols, slots, shortest, span))
    note("Slots follow each other through subframes and frames, also before frame 0.")
    for before, after in (
        ("1 0 0 0", "0 0 1"),
        ("1 0 0 1", "0 1 0"),
        ("1 0 9 1", "1 0 0"),
        ("1 255 9 1", "256 0 0"),
        ("1 -1 9 1", "0 0 0"),
        ("1 -2 9 1", "-1 0 0"),
        ("12:0:3168 3 4 0", "3 5 0"),
    ):
        entry("after " + before, after)
    note("The PRBs of a section: numPrb 0 names all, and none may go past the carrier's.")
    for section, named in (("1023 0 106", "0 106"), ("100 6 106", "100 6"), ("100 7 106", "none")):
        entry("prbs " + section, named)


def frames():
    note("By hand: just the nearest frame, at 0 and 1 ns, at 2.55 s, a nanosecond before 2.56 s and at 2.56 s.")
    for frame_id, at, frame in ((128, 0, -128), (128, 1, 128), (0, 0, 0), (255, 0, -1), (255, 2_560_000_000, 255), (0, 2_550_000_000, 256), (1, 2_559_999_999, 257)):
        entry("frame %d %d" % (frame_id, at * 1536), str(frame))
    note("The frame that a frameId means at a time: the only one with these low eight bits that starts from 128 frames before")
    note("that time to less than 128 frames after it.")
    for frame_id in (0, 1, 127, 128, 129, 254, 255):
        for at in (0, 1, -1, 127 * FRAME, 128 * FRAME, 128 * FRAME + 1, 254 * FRAME, 255 * FRAME, 256 * FRAME, 256 * FRAME - 1, 383 * FRAME, 384 * FRAME, 384 * FRAME + 1, -128 * FRAME, -128 * FRAME + 1):
            found = [f for f in range(-600, 900) if f % 256 == frame_id and at - 128 * FRAME <= f * FRAME < at + 128 * FRAME]
            assert len(found) == 1
            entry("frame %d %d" % (frame_id, at), str(found[0]))


# Frames by the layout table of the common header, written out by hand: each header, then its payload, and ff behind a
# payload of at least one byte; and the fault, if there is one.
PDUS = [
    ("Nothing at all, another revision, a header cut at 2, a payload cut at 8.", [
        ("", "", "Truncated 0"),
        ("20020014", "", "Revision 0"),
        ("1002", "", "Truncated 2"),
        ("10020014 00000080", "10020014 00000080", "Truncated 8")]),
    ("Another message is to follow: the padding is cut, or there is none and the next header is missing.", [
        ("11030001 aa", "11030001 aa ff", "NoPadding 5"),
        ("11030000", "11030000", "Truncated 4")]),
    ("Whole frames of one message each.", [
        ("10020003 000000", "10020003 000000 ff", None),
        ("10020004 00010080", "10020004 00010080 ff", None),
        ("10020004 00000000", "10020004 00000000 ff", None),
        ("10020004 00000080", "10020004 00000080 ff", None),
        ("10000004 00000080", "10000004 00000080 ff", None),
        ("10000008 00000180 10010000", "10000008 00000180 10010000 ff", None),
        ("10000008 00000280 90010000", "10000008 00000280 90010000 ff", None),
        ("10050004 00000000", "10050004 00000000 ff", None)]),
    ("21 bytes, 3 of padding that could be a header of another revision, and the last message with 20 bytes.", [
        ("11030015 0102030405060708090a0b0c0d0e0f101112131415 20ffff 10050014 2122232425262728292a2b2c2d2e2f3031323334",
         "11030015 0102030405060708090a0b0c0d0e0f101112131415 ff 10050014 2122232425262728292a2b2c2d2e2f3031323334 ff", None)]),
]


# The payloads of the last frame.
FIRST = "0102030405060708090a0b0c0d0e0f101112131415"
SECOND = "333435363738393a3b3c3d3e3f40414243444546"
PADDED = "11030015" + FIRST + "aabbcc" + "10050014" + SECOND

# Headers by hand: the bytes, the fields, the padding behind the payload, and the bytes that are written.
HEADERS = [
    ("11030015", (1, 3, 21), 3, "11030015"),
    ("1f030015", (1, 3, 21), 3, "11030015"),
    ("1005abcd", (0, 5, 0xABCD), 3, "1005abcd"),
    ("10030014", (0, 3, 20), 0, "10030014"),
]

# Frames by hand: its messages, each with its place, its header and its payload, and its fault.
WHOLE = [
    (PADDED, [(0, (1, 3, 21), FIRST), (28, (0, 5, 20), SECOND)], None),
    (PADDED[: 2 * 28], [(0, (1, 3, 21), FIRST)], "Truncated 28"),
    (PADDED[: 2 * 26], [(0, (1, 3, 21), FIRST)], "NoPadding 26"),
    ("20020014", [], "Revision 0"),
    ("", [], "Truncated 0"),
    ("11030000", [(0, (1, 3, 0), "")], "Truncated 4"),
    ("11030001aa", [(0, (1, 3, 1), "aa")], "NoPadding 5"),
]


def headers():
    note("Headers, read and written: the revision, the reserved bits and C, the type and the size.")
    for text, fields, padding, written in HEADERS:
        entry("header " + text, "more %d type %d size %d padding %d written %s" % (*fields, padding, written))
    note("Frames that are held whole, and the faults behind whole messages.")
    for frame, told, fault in WHOLE:
        answer = fault or "whole"
        for place, fields, payload in told:
            answer += "\n  at %d more %d type %d size %d payload %s" % (place, *fields, payload or "-")
        entry("messages " + (frame or "-"), answer)


def joined(text):
    return text.replace(" ", "") or "-"


def pdus():
    for name, rows in PDUS:
        note(name)
        for frame, told, fault in rows:
            entry("pdu " + joined(frame), "%s %s, alike in any pieces" % (joined(told), fault or "whole"))


HEAD = dict(down=1, filter=0, frame_id=1, subframe=0, slot=0, start_symbol=0, time_offset=0, structure=0, cp_length=0, comp=0)
ONE = dict(id=1, sym_inc=0, start_prb=0, num_prb=1, mask=0xFFF, num_symbol=1, beam=0, freq_offset=0)


def bits(*fields):
    """Fields (value, width) one after the other, as hexadecimal digits."""
    text = "".join(format(value % 2**width, "0%db" % width) for value, width in fields)
    assert len(text) % 8 == 0
    return "%0*x" % (len(text) // 4, int(text, 2))


def head_text(kind, count, head, version=1, reserved=0):
    h = HEAD | head
    first = [(h["down"], 1), (version, 3), (h["filter"], 4), (h["frame_id"], 8)]
    first += [(h["subframe"], 4), (h["slot"], 6), (h["start_symbol"], 6), (count, 8), (kind, 8)]
    if kind == 1:
        return bits(*first, (h["comp"], 8), (reserved, 8))
    last = (h["comp"], 8) if kind == 3 else (reserved, 8)
    return bits(*first, (h["time_offset"], 16), (h["structure"], 8), (h["cp_length"], 16), last)


def section_text(kind, section, rb=0, ef=0, reserved=0):
    s = ONE | section
    fields = [(s["id"], 12), (rb, 1), (s["sym_inc"], 1), (s["start_prb"], 10), (s["num_prb"], 8)]
    fields += [(s["mask"], 12), (s["num_symbol"], 4), (ef, 1), (reserved if kind == 0 else s["beam"], 15)]
    if kind == 3:
        fields += [(s["freq_offset"], 24), (reserved, 8)]
    return bits(*fields)


def message_text(kind, head, sections, reserved=0):
    text = head_text(kind, len(sections), head, reserved=reserved)
    return text + "".join(section_text(kind, s, reserved=reserved) for s in sections)


# Name, section type, symbols and slots, header fields, sections, reserved bits.
MESSAGES = [
    ("symInc in the second of two sections", 1, (14, 2), {}, [{}, {"sym_inc": 1}], 0),
    ("a section that is idle", 0, (14, 2), {"structure": 1}, [{}], 0),
    ("an offset endpoint at 1.25 kHz", 3, (14, 1), {"subframe": 4, "structure": 12, "cp_length": 3168}, [{}], 0),
    ("type 0, symInc in the middle", 0, (14, 4),
     dict(down=0, filter=5, frame_id=0xC7, subframe=8, slot=2, start_symbol=3, time_offset=0x1357, structure=0xC1, cp_length=0x2468),
     [dict(id=0x9AB, start_prb=0x2A5, num_prb=0x5C, mask=0x36C, num_symbol=2),
      dict(id=0x432, sym_inc=1, start_prb=0x13B, num_prb=0xE1, mask=0x924, num_symbol=5),
      dict(id=0x100, start_prb=0x0F0, num_prb=0x01, mask=0x001, num_symbol=10)], 0),
    ("type 1, symInc twice", 1, (14, 8),
     dict(filter=6, frame_id=0x81, subframe=3, slot=5, start_symbol=9, comp=0x91),
     [dict(id=0x123, sym_inc=1, start_prb=0x2C3, num_prb=0x55, mask=0xA5C, num_symbol=4, beam=0x4321),
      dict(id=0x456, start_prb=0x0AA, num_prb=0x77, mask=0x5A3, num_symbol=3, beam=0x1234),
      dict(id=0x789, sym_inc=1, start_prb=0x1FE, num_prb=0x88, mask=0xC3C, num_symbol=1, beam=0x7FFE),
      dict(id=0xFED, start_prb=0x301, num_prb=0x10, mask=0x800, num_symbol=3, beam=0x0001)], 0),
    ("type 3, the extremes of freqOffset", 3, (14, 16),
     dict(down=0, filter=3, frame_id=0xFE, subframe=9, slot=11, start_symbol=1, time_offset=0xBCD0, structure=0xBC, cp_length=0x0C60, comp=0x42),
     [dict(id=0xFED, start_prb=0x0F7, num_prb=0x0C, mask=0x7FE, num_symbol=12, beam=0x5A5A, freq_offset=0x7FFFFF),
      dict(id=0x0DC, sym_inc=1, start_prb=0x1E6, num_prb=0x1B, mask=0x6ED, num_symbol=11, beam=0x2B4C, freq_offset=-0x800000),
      dict(id=0x0CB, start_prb=0x2D5, num_prb=0x2A, mask=0x5DC, num_symbol=10, beam=0x1357, freq_offset=-1),
      dict(id=0x0BA, sym_inc=1, start_prb=0x3C4, num_prb=0x39, mask=0x4CB, num_symbol=9, beam=0x2468, freq_offset=-1234567)], 0),
    ("up to the last symbol, 5 + 9", 1, (14, 1), {"start_symbol": 5}, [{"num_symbol": 9}], 0),
    ("up to the last of 12 symbols", 1, (12, 1), {"start_symbol": 11}, [{}], 0),
    ("15 symbols of 64", 1, (64, 1), {"start_symbol": 48}, [{"sym_inc": 1, "num_symbol": 15}], 0),
    ("slotId 63 of 64 slots", 1, (14, 64), {"slot": 63}, [{}], 0),
    ("all PRBs and no resource element", 1, (14, 1), {}, [dict(start_prb=1023, num_prb=0, mask=0)], 0),
    ("type 1, each field at its greatest", 1, (14, 64),
     dict(filter=15, frame_id=255, subframe=9, slot=63, start_symbol=13, comp=255),
     [dict(id=0xFFF, start_prb=0x3FF, num_prb=255, mask=0xFFF, num_symbol=1, beam=0x7FFF)], 0),
    ("type 3, each field at its greatest", 3, (64, 64),
     dict(filter=15, frame_id=255, subframe=9, slot=63, start_symbol=48, time_offset=0xFFFF, structure=255, cp_length=0xFFFF, comp=255),
     [dict(id=0xFFF, sym_inc=1, start_prb=0x3FF, num_prb=255, mask=0xFFF, num_symbol=15, beam=0x7FFF, freq_offset=0x7FFFFF)], 0),
    ("type 0, reserved bits 1", 0, (14, 2), {"structure": 1}, [{}, {"id": 2}], -1),
    ("type 1, reserved bits 1", 1, (14, 2), {}, [{}, {"id": 2}], -1),
    ("type 3, reserved bits 1", 3, (14, 1), {"structure": 12}, [{"freq_offset": 0x123456}, {"id": 2, "freq_offset": -2}], -1),
]

O1 = head_text(1, 1, {})
O0 = head_text(0, 1, {})
O3 = head_text(3, 1, {})


def cut(text, size):
    return text[: 2 * size]


def one(kind, head=None, section=None, count=1, version=1, rb=0, ef=0, behind=""):
    return head_text(kind, count, head or {}, version) + section_text(kind, section or {}, rb, ef) + behind


def two(kind, section, rb=0, ef=0, size=None):
    text = head_text(kind, 2, {}) + section_text(kind, {}) + section_text(kind, section, rb, ef)
    return text if size is None else cut(text, size)


# Name, text, symbols and slots, place, reason.
REFUSED = [
    ("no byte", "", (14, 2), 0, "Truncated"),
    ("5 bytes", cut(O1, 5), (14, 2), 5, "Truncated"),
    ("payloadVersion 0", one(1, version=0), (14, 2), 0, "Version"),
    ("payloadVersion 2, and section type 2", cut(head_text(2, 0, dict(subframe=15), 2), 6), (14, 2), 0, "Version"),
    ("payloadVersion 3", one(1, version=3), (14, 2), 0, "Version"),
    ("section type 2", cut(head_text(2, 0, dict(subframe=15)), 6), (14, 2), 0, "SectionType"),
    ("section type 4", one(4), (14, 2), 0, "SectionType"),
    ("section type 5", one(5), (14, 2), 0, "SectionType"),
    ("section type 255", one(255), (14, 2), 0, "SectionType"),
    ("type 0, 6 bytes of 12", cut(O0, 6), (14, 2), 6, "Truncated"),
    ("type 0, 11 bytes of 12, subframe 15", cut(head_text(0, 0, dict(subframe=15)), 11), (14, 2), 11, "Truncated"),
    ("type 3, 11 bytes of 12", cut(O3, 11), (14, 2), 11, "Truncated"),
    ("type 1, 7 bytes of 8", cut(O1, 7), (14, 2), 7, "Truncated"),
    ("subframe 10", one(1, dict(subframe=10)), (14, 2), 0, "SlotRange"),
    ("subframe 15, start symbol 63, no sections", one(0, dict(subframe=15, start_symbol=63), count=0), (14, 2), 0, "SlotRange"),
    ("slot 2 of 2", one(3, dict(slot=2)), (14, 2), 0, "SlotRange"),
    ("slot 63 of 63", one(1, dict(slot=63)), (14, 63), 0, "SlotRange"),
    ("start symbol 14, no sections", one(1, dict(start_symbol=14), count=0), (14, 2), 0, "SymbolRange"),
    ("start symbol 63", one(0, dict(start_symbol=63)), (14, 2), 0, "SymbolRange"),
    ("start symbol 12 of 12", one(1, dict(start_symbol=12)), (12, 2), 0, "SymbolRange"),
    ("no sections, and bytes behind", one(1, count=0), (14, 2), 0, "NoSections"),
    ("no sections, nothing behind", head_text(3, 0, {}), (14, 2), 0, "NoSections"),
    ("type 1, no byte of the section", O1, (14, 2), 8, "Truncated"),
    ("type 1, 7 bytes of a section with rb", cut(one(1, rb=1), 15), (14, 2), 15, "Truncated"),
    ("type 0, 7 bytes of the section", cut(one(0), 19), (14, 2), 19, "Truncated"),
    ("type 3, 11 bytes of a section with rb and ef", cut(one(3, rb=1, ef=1), 23), (14, 2), 23, "Truncated"),
    ("type 3, 11 bytes of the second section", two(3, {}, size=35), (14, 2), 35, "Truncated"),
    ("rb", one(1, rb=1), (14, 2), 8, "EveryOtherRb"),
    ("rb and ef, and a byte behind", one(1, rb=1, ef=1, behind="00"), (14, 2), 8, "EveryOtherRb"),
    ("ef", one(3, ef=1), (14, 2), 12, "Extension"),
    ("ef in type 0", one(0, ef=1), (14, 2), 12, "Extension"),
    ("ef, and no symbol", one(1, section=dict(num_symbol=0), ef=1), (14, 2), 8, "Extension"),
    ("no symbol", one(1, section=dict(num_symbol=0)), (14, 2), 8, "SymbolRange"),
    ("symbols to 15, 5 + 10, and a byte behind", one(1, dict(start_symbol=5), dict(num_symbol=10), behind="00"), (14, 2), 8, "SymbolRange"),
    ("symInc behind the last symbol", one(0, dict(start_symbol=13), dict(sym_inc=1)), (14, 2), 12, "SymbolRange"),
    ("symbols to 13 of 12", one(1, dict(start_symbol=11), dict(num_symbol=2)), (12, 2), 8, "SymbolRange"),
    ("rb in the second section", two(1, {}, rb=1), (14, 2), 16, "EveryOtherRb"),
    ("ef in the second section of type 3", two(3, {}, ef=1), (14, 2), 24, "Extension"),
    ("no symbol in the second section of type 0", two(0, dict(num_symbol=0)), (14, 2), 20, "SymbolRange"),
    ("14 symbols behind symInc", two(1, dict(sym_inc=1, num_symbol=14)), (14, 2), 16, "SymbolRange"),
    ("a byte behind", one(1, behind="00"), (14, 2), 16, "Trailing"),
    ("a whole section behind", one(3, behind=section_text(3, {})), (14, 2), 24, "Trailing"),
    ("4 bytes behind type 0", one(0, behind="ffffffff"), (14, 2), 20, "Trailing"),
]


def header_answer(kind, head, count):
    h = HEAD | head
    fields = "%s filter %d frame %d subframe %d slot %d symbol %d sections %d type %d" % (
        "down" if h["down"] else "up", h["filter"], h["frame_id"], h["subframe"], h["slot"], h["start_symbol"], count, kind)
    if kind != 1:
        fields += " offset %d structure %d prefix %d" % (h["time_offset"], h["structure"], h["cp_length"])
    if kind != 0:
        fields += " compression %d" % h["comp"]
    return fields


def message_answer(kind, head, sections):
    answer = header_answer(kind, head, len(sections))
    symbol = (HEAD | head)["start_symbol"]
    for section in sections:
        s = ONE | section
        symbol += s["sym_inc"]
        answer += "\n  section %d step %d symbol %d symbols %d prb %d prbs %d mask %03x beam %d frequency %d" % (
            s["id"], s["sym_inc"], symbol, s["num_symbol"], s["start_prb"], s["num_prb"], s["mask"], s["beam"], s["freq_offset"])
    return answer + "\n  written " + message_text(kind, head, sections)


def message(kind, shape, head, sections, reserved=0):
    """A message that is read and written again; it is written with reserved bits 0."""
    answer = message_answer(kind, head, sections)
    entry("control %d %d %s" % (*shape, message_text(kind, head, sections, reserved)), answer)


# Messages and their fields, both written out by hand from the layout tables.
BY_HAND = [
    ("type 0", "92a570c501001234c105670 0abc1556af0f40000", 0, (14, 4),
     dict(filter=2, frame_id=0xA5, subframe=7, slot=3, start_symbol=5, time_offset=0x1234, structure=0xC1, cp_length=0x0567),
     [dict(id=0xABC, start_prb=0x155, num_prb=0x6A, mask=0xF0F, num_symbol=4)]),
    ("type 1 with symInc", "193c40420101910 01236c355a5c74321", 1, (14, 4),
     dict(down=0, filter=9, frame_id=0x3C, subframe=4, slot=1, start_symbol=2, comp=0x91),
     [dict(id=0x123, sym_inc=1, start_prb=0x2C3, num_prb=0x55, mask=0xA5C, num_symbol=7, beam=0x4321)]),
    ("one PRB of symbol 0", "9001000001010000 00100001fff10000", 1, (14, 4), {}, [{}]),
    ("type 3, freqOffset below 0", "13fe908101030bcdbc0c6041 fed0f70c7fec5a5aed297900", 3, (14, 4),
     dict(down=0, filter=3, frame_id=0xFE, subframe=9, slot=2, start_symbol=1, time_offset=0x0BCD, structure=0xBC, cp_length=0x0C60, comp=0x41),
     [dict(id=0xFED, start_prb=0x0F7, num_prb=0x0C, mask=0x7FE, num_symbol=12, beam=0x5A5A, freq_offset=-1_234_567)]),
    ("three sections, symInc in the second", "9001000203010000 00100001fff10000 00240101fff20000 00300201fff30000", 1, (14, 4),
     dict(start_symbol=2), [{}, dict(id=2, sym_inc=1, start_prb=1, num_symbol=2), dict(id=3, start_prb=2, num_symbol=3)]),
]

# The message of one PRB with a byte changed: which byte, to what, and the refusal.
CHANGED = [
    (0, 0xA0, "Version 0"),
    (5, 0x02, "SectionType 0"),
    (2, 0xA0, "SlotRange 0"),
    (2, 0x01, "SlotRange 0"),
    (3, 0x0E, "SymbolRange 0"),
    (4, 0x00, "NoSections 0"),
    (4, 0x02, "Truncated 16"),
    (9, 0x18, "EveryOtherRb 8"),
    (14, 0x80, "Extension 8"),
    (13, 0xF0, "SymbolRange 8"),
    (13, 0xFF, "SymbolRange 8"),
]


def changed(text, at, byte):
    return text[: 2 * at] + "%02x" % byte + text[2 * at + 2 :]


def control_by_hand():
    for name, text, kind, shape, head, sections in BY_HAND:
        note("By hand: " + name + ".")
        assert joined(text) == message_text(kind, head, sections)
        message(kind, shape, head, sections)
    type_0, one_prb, three = (joined(BY_HAND[k][1]) for k in (0, 2, 4))
    note("By hand: in type 0 the 15 bits behind ef may hold anything, and ef is refused.")
    name, text, kind, shape, head, sections = BY_HAND[0]
    entry("control 14 4 " + changed(type_0, 18, 0x7F), message_answer(kind, head, sections))
    entry("control 14 4 " + changed(type_0, 18, 0x80), "refused Extension 12")
    note("By hand: the message of one PRB, cut, and with one byte changed.")
    for size in (0, 5, 7, 12, 15):
        entry("control 14 4 " + (one_prb[: 2 * size] or "-"), "refused Truncated %d" % size)
    for at, byte, refusal in CHANGED:
        entry("control 14 4 " + changed(one_prb, at, byte), "refused " + refusal)
    note("By hand: places are counted from the message, and the first fault is told.")
    two_of = changed(three, 4, 2)
    entry("control 14 4 " + two_of, "refused Trailing 24")
    entry("control 14 4 " + changed(two_of, 17, 0x2C), "refused EveryOtherRb 16")
    note("255 sections, each with a number of its own.")
    message(3, (14, 4), dict(down=0, filter=1, frame_id=0, time_offset=1, structure=2, cp_length=3),
            [dict(id=k, start_prb=k, num_symbol=14, beam=k, freq_offset=-1) for k in range(255)])


def control():
    for name, kind, shape, head, sections, reserved in MESSAGES:
        note(name)
        message(kind, shape, head, sections, reserved)
    note("By hand: a header of 12 bytes and 255 sections of 12 are 3,072 bytes.")
    many = [dict(id=0xABC, start_prb=1, num_prb=2, mask=0x0FF, num_symbol=3, beam=5, freq_offset=-2)] * 255
    assert len(message_text(3, dict(down=0), many)) == 2 * 3072
    message(3, (14, 2), dict(down=0), many)
    note("The same without its last byte, and with 254 sections in its header.")
    text = message_text(3, dict(down=0), many)
    entry("control 14 2 " + text[:-2], "refused Truncated 3071")
    entry("control 14 2 " + head_text(3, 254, dict(down=0)) + text[24:], "refused Trailing 3060")
    note("By hand: with symInc in each section the 13th covers symbol 13; the 14th, at 12 + 13 * 12, would cover symbol 14.")
    message(3, (14, 2), dict(down=0), [dict(sym_inc=1)] * 13)
    entry("control 14 2 " + message_text(3, dict(down=0), [dict(sym_inc=1)] * 255), "refused SymbolRange 168")
    for name, text, shape, place, why in REFUSED:
        note(name)
        entry("control %d %d %s" % (*shape, text or "-"), "refused %s %d" % (why, place))


def answers(hold, arrivals):
    """The answer to each arrival (time, endpoint, id, last, sub, length), by reading all arrivals before it anew; a whole
    message with the times of its first and last piece, and the length and the first byte of each piece in order."""
    out = []
    for n, (time, ep, seq, last, sub, length) in enumerate(arrivals):
        # The generation of this endpoint and id that is open, if one is: its start and what came in it.
        start, members = None, []
        for k, other in enumerate(arrivals[:n]):
            if other[1:3] != (ep, seq):
                continue
            if start is None or other[0] > start + hold:
                start, members = other[0], []
            members.append(k)
        if start is None or time > start + hold:
            members = []
        standing = [k for k in members if out[k] == "Stored" or out[k].startswith("Whole")]
        subs = [arrivals[k][4] for k in standing]
        ends = [arrivals[k][4] for k in standing if arrivals[k][3]]
        total = sum(arrivals[k][5] for k in standing)
        if any(out[k].startswith("Whole") for k in members) or sub in subs:
            out.append("Repeat")
        elif any(sub > e for e in ends) or (last and any(other > sub for other in subs)):
            out.append("Stray")
        elif total + length > 16_384:
            out.append("TooLong")
        else:
            pieces = {arrivals[k][4]: arrivals[k] for k in standing} | {sub: arrivals[n]}
            ends = ends + ([sub] if last else [])
            if ends and set(range(ends[0] + 1)) <= set(pieces):
                times = [piece[0] for piece in pieces.values()]
                shown = ["%dx%d" % (pieces[k][5], k if pieces[k][5] else 0) for k in range(ends[0] + 1)]
                out.append("Whole %d %d %s" % (min(times), max(times), " ".join(shown)))
            else:
                out.append("Stored")
    return out


def arrive(hold, arrivals):
    entry("hold %d" % hold, "%d" % hold)
    told = answers(hold, arrivals)
    for (time, ep, seq, last, sub, length), answer in zip(arrivals, told):
        entry("fragment %d %d %02x%02x %d" % (time, ep, seq, 128 * last + sub, length), answer)
    return told


def fragments_by_hand():
    note("By hand: sequence fields.")
    for text, seq, last, sub in (("0000", 0, 0, 0), ("0785", 7, 1, 5), ("ff7f", 255, 0, 127), ("8080", 128, 1, 0)):
        entry("sequence " + text, "seq %d e %d sub %d written %s" % (seq, last, sub, text))
    note("By hand: a message in another order, what goes beyond its end, and what comes again.")
    ns = 1536
    entry("hold %d" % (211_000 * ns), "%d" % (211_000 * ns))
    for text, answer in (
        ("0 0 0982 2", "Stored"),
        ("1536 0 0900 1", "Stored"),
        ("1536 0 0903 1", "Stray"),
        ("3072 0 0901 3", "Whole 0 3072 1x0 3x1 2x2"),
        ("4608 0 0901 3", "Repeat"),
        ("4608 0 0903 1", "Repeat"),
    ):
        entry("fragment " + text, answer)


def fragments():
    note("Two endpoints and two sequence ids in turn, drawn.")
    draw = random.Random(5)
    arrivals = []
    time = 0
    for _ in range(240):
        time += draw.choice([0, 1, 2, 3, 5, 9])
        sub = draw.choice([0, 0, 1, 1, 2, 3])
        last = draw.random() < (0.15, 0.5, 0.6, 0.9)[sub]
        length = draw.choice([0, 1, 100, 1_492, 5_461, 8_192, 8_193, 16_384])
        arrivals.append((time, draw.choice([0, 15]), draw.choice([0, 255]), last, sub, length))
    told = arrive(60, arrivals)
    assert {t.split()[0] for t in told} == {"Stored", "Whole", "Repeat", "Stray", "TooLong"}
    note("128 pieces in reverse order, the last one first: whole with the piece 0, at the end of the hold.")
    told = arrive(127, [(127 - sub, 15, 255, sub == 127, sub, 1) for sub in range(127, -1, -1)])
    assert told[:127] == ["Stored"] * 127 and told[127].startswith("Whole 0 127 1x0 1x1 ")
    note("A generation holds its end, ten ticks after it began, and not the next tick; another endpoint goes its own way.")
    told = arrive(10, [(-25, 0, 1, False, 0, 1), (-15, 0, 1, False, 0, 1), (-14, 0, 1, False, 0, 1), (-13, 1, 1, False, 0, 1), (-4, 0, 1, True, 1, 1)])
    assert [t.split()[0] for t in told] == ["Stored", "Repeat", "Stored", "Stored", "Whole"]
    note("Two ids in turn: one with E = 1 below a piece that stands, and one beyond it.")
    told = arrive(10, [(0, 0, 255, False, 5, 1), (1, 0, 0, True, 1, 1), (2, 0, 255, True, 4, 1), (3, 0, 0, False, 0, 1), (4, 0, 255, True, 6, 1)])
    assert [t.split()[0] for t in told] == ["Stored", "Stored", "Stray", "Whole", "Stored"]
    note("No hold: a generation is one tick.")
    four = [(1, False, 1), (1, False, 0), (1, True, 2), (1, True, 2)]
    told = arrive(0, [(at, 0, *field, 1) for at in (5, 5, 6) for field in four])
    assert [t.split()[0] for t in told] == ["Stored", "Stored", "Whole", "Repeat"] + ["Repeat"] * 4 + ["Stored", "Stored", "Whole", "Repeat"]
    note("16,384 bytes are a message, 16,385 are too many; what is too long does not stand.")
    told = arrive(10, [(0, 0, 4, True, 0, 16_384), (0, 0, 5, True, 0, 16_385), (10, 0, 5, False, 0, 16_384), (10, 0, 5, False, 1, 1), (10, 0, 5, True, 1, 0), (11, 0, 5, True, 1, 0)])
    assert [t.split()[0] for t in told] == ["Whole", "TooLong", "Stored", "TooLong", "Whole", "Stored"]
    note("15 pieces of 1,024 bytes and one more are 16,384; with 1,025 they are too many, and that piece does not stand.")
    told = arrive(10, [(0, 1, 255, False, sub, 1_024) for sub in range(15)] + [(1, 1, 255, True, 15, 1_025), (2, 1, 255, True, 15, 1_024)])
    assert told[15] == "TooLong" and told[16].startswith("Whole 0 2 1024x0 ")


def exponent_of(numbers, width):
    """The least exponent at which every floor fits, by trying them all."""
    low, high = -(1 << (width - 1)), (1 << (width - 1)) - 1
    for e in range(16):
        if all(low <= x // 2**e <= high for x in numbers):
            return e
    raise ValueError("no exponent fits")


def spell(numbers, width):
    """Numbers of `width` bits in two's complement, one after the other, as bytes."""
    text = "".join(format(x % 2**width, "0%db" % width) for x in numbers)
    return bytes(int(text[i : i + 8], 2) for i in range(0, len(text), 8))


def packed(numbers, width):
    """The bytes and the values of a block; width None is no compression."""
    if width is None:
        return spell(numbers, 16), list(numbers)
    e = exponent_of(numbers, width)
    mantissas = [x // 2**e for x in numbers]
    return bytes([e]) + spell(mantissas, width), [m * 2**e for m in mantissas]


def method(width):
    return "plain" if width is None else str(width)


def nonzero(values):
    return "".join(" %d:%d" % (k, x) for k, x in enumerate(values) if x)


BLOCKS = [
    # One number is far from the others, at place 13.
    [3, -1, 0, 2, -2, 1, 1, -3, 2, 0, -1, 4, -4, -29876, 2, 3, 5, -5, 0, 0, 1, -1, 2, -7],
    # Signs alternate.
    [(-1) ** k * (1000 + 37 * k) for k in range(24)],
    # Numbers of every size.
    [1, -1, 2, -3, 5, -8, 13, -21, 34, -55, 89, -144, 233, -377, 610, -987, 1597, -2584, 4181, -6765, 10946, -17711, 28657, -32768],
]


# A block that uses the whole range, and one that does not.
STEEP = [1, 32767, -2701, 26810, 5401, 20853, -8101, 14896, 10801, 8939, -13501, 2982,
         16201, -2975, -18901, -8932, 21601, -14889, -24301, -20846, 27001, -26803, -29701, -32760]
SHALLOW = [-600, 13, -500, 6, -400, -15, -300, -50, -200, -99, -100, -162,
           0, -239, 100, -330, 200, -435, 300, -554, 400, -687, 500, -834]

# Blocks packed by hand: the width, the numbers, the bytes, and the numbers that they are unpacked to.
PACKED = [
    (8, SHALLOW, "03b501c100cefedaf9e7f3f3eb00e20cd619c925ba32aa3e97",
     [-600, 8, -504, 0, -400, -16, -304, -56, -200, -104, -104, -168,
      0, -240, 96, -336, 200, -440, 296, -560, 400, -688, 496, -840]),
    (9, STEEP, "07003ffd4d11528b80742a1172c173f7a2d9ba5462e855d694ba2f00",
     [0, 32640, -2816, 26752, 5376, 20736, -8192, 14848, 10752, 8832, -13568, 2944,
      16128, -3072, -18944, -8960, 21504, -14976, -24320, -20864, 26880, -26880, -29824, -32768]),
    (14, STEEP, "020001ffff571a2e151945de058e8c2a308bacb402e93f4bd18b62b747546317 5a112ba4697a5d38bfa002",
     [0, 32764, -2704, 26808, 5400, 20852, -8104, 14896, 10800, 8936, -13504, 2980,
      16200, -2976, -18904, -8932, 21600, -14892, -24304, -20848, 27000, -26804, -29704, -32760]),
    (None, STEEP, "00017ffff57368ba15195175e05b3a302a3122ebcb430ba63f49f461b62bdd1c 5461c5d7a113ae926979974d8bfb8008", STEEP),
]


def blocks_by_hand():
    note("By hand: blocks at 8, 9 and 14 bits, and not compressed; mantissas are rounded down.")
    for width, numbers, text, values in PACKED:
        entry("block %s %s" % (method(width), " ".join(map(str, numbers))), joined(text) + nonzero(values))
    note("By hand: 255 and -256 have the exponent 0 at 9 bits, and 256 has 1.")
    for number, exponent in ((255, 0), (-256, 0), (256, 1)):
        entry("exponent 9 %d" % number, " ".join([str(exponent)] * 24))


def blocks():
    for numbers in BLOCKS:
        note("A block at every width.")
        for width in WIDTHS + [None]:
            bytes_, values = packed(numbers, width)
            entry("block %s %s" % (method(width), " ".join(map(str, numbers))), bytes_.hex() + nonzero(values))
    note("The least and the greatest number alone, at every place and width; and zeros.")
    for width in WIDTHS + [None]:
        for place in range(24):
            for x in (-32768, 32767):
                bytes_, values = packed([x if k == place else 0 for k in range(24)], width)
                entry("single %s %d %d" % (method(width), place, x), bytes_.hex() + nonzero(values))
        bytes_, values = packed([0] * 24, width)
        assert not any(bytes_)
        entry("single %s 0 0" % method(width), bytes_.hex())
    note("By hand: the floors of 1000 / 4 and -1023 / 4 are 250 and -256, in 9 bits 011111010 and 100000000.")
    entry("block 9 1000 -1023" + " 0" * 22, "027d40" + "00" * 25 + " 0:1000 1:-1024")
    note("By hand: the reserved half of the exponent's byte is passed over, and a mantissa of 16 bits times 2 to 15 is kept")
    note("whole, though no block is packed so.")
    entry("unpack 16 af80" + "00" * 45 + "7fff", "0:-1073741824 23:1073709056")
    entry("unpack 1 53800001", "0:-8 23:-8")
    note("The exponents at the limits, of blocks with one number at each place.")
    rows = [(width, x) for width in WIDTHS for x in limits(1 << (width - 1))]
    rows += [(9, x) for e in range(8) for x in limits(2 ** (8 + e))]
    for width, x in rows:
        if -32768 <= x <= 32767:
            entry("exponent %d %d" % (width, x), " ".join([str(exponent_of([x, 0], width))] * 24))


def limits(top):
    return (top - 1, top, -top, -top - 1)


def others():
    note("No entries.")
    for line in ("nothing", "symbol 5 0 0 0 0", "symbol 0 0 0 0", "symbol 0 0 0 0 0 0", "frame 256 0", "pdu 1", "pdu 0g", "pdu", "control 14 2",
                 "hold -1", "fragment 0 16 0000 1", "fragment 0 0 000 1", "sequence 000", "header 100300", "numerology 1:2", "slots", "after 5 0 0 0", "prbs 1 256 1", "messages 0", "block 17 1", "single 9 24 1", "unpack 1 53", "exponent 0 1", "exponent 9 32768"):
        entry(line, None)
    ENTRIES.append("")
    ANSWERS.append("")


if __name__ == "__main__":
    for table in (symbols, numerologies, frames, headers, pdus, control_by_hand, control, fragments_by_hand, fragments, blocks_by_hand, blocks, others):
        table()
    here = os.path.dirname(os.path.abspath(__file__))
    for name, lines in (("stdin", ENTRIES), ("stdout", ANSWERS)):
        with open(os.path.join(here, name), "w") as file:
            file.write("\n".join(lines) + "\n")
