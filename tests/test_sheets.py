"""The library answers the examples of docs/SHEETS.md as the page says."""
import ctypes as c

from library import Entry, Room, load
from stated import RULES, SHEETS, Stated, number, rows

ROOM = "The room that a sheet will need"


class Sheets(Stated):
    def test_reading(self):
        """Counted and read by the library, and where refused by the day list too."""
        library, met = load(), set()
        for place, cells in rows(SHEETS, "Reading", 4):
            sheet = bytes.fromhex(cells[0].strip("`"))
            wanted = (number(cells[1]), number(cells[2])), place
            scan = library.tg_scan_sheet(sheet, len(sheet))
            met.add(scan.number)
            self.agree(cells[0], ((scan.number, scan.at or scan.entries), "tg_scan_sheet"), wanted)
            row = (c.c_uint32 * 360)(*[7] * 360)
            read = library.tg_read_sheet(sheet, len(sheet), row, 360)
            self.agree(cells[0], ((read.number, read.at or read.entries), "tg_read_sheet"), wanted)
            if scan.number:
                self.agree(cells[0], (set(row), "tg_read_sheet's rows"), ({7}, place))
                out = c.create_string_buffer(64)
                library.tg_day_list(sheet, len(sheet), 2, out, 64)
                self.agree(cells[0], (out.value.decode(), "tg_day_list"), (f"broken {cells[2]} {cells[1]}\n", place))
        self.agree("the examples' numbers", (met, f"{SHEETS}, Reading"), ({0, 12, 13, 14}, RULES))

    def test_room(self):
        """Each answer with its own fields, and 0 in all others."""
        library, met = load(), set()
        fields = {0: ("jobs", "arcs", "steps"), 5: ("entry",), 6: ("entry", "place"), 7: ("entry",), 8: ("entry",),
                  12: ("at",), 13: ("at",), 14: ("at",)}

        def told(what, sheet, answer, values, place):
            room = library.tg_room_of_sheet(sheet, len(sheet))
            met.add(room.number)
            came = {name: getattr(room, name) for name, _ in Room._fields_}
            wanted = {**dict.fromkeys(came, 0), "number": answer, **dict(zip(fields[answer], values, strict=True))}
            self.agree(what, (came, "tg_room_of_sheet"), (wanted, place))

        for place, cells in rows(SHEETS, ROOM, 4):
            told(cells[0], bytes.fromhex(cells[0].strip("`")), number(cells[1]), map(int, cells[2].split()), place)
        entries = [b"\1" + name.to_bytes(4, "little") for name in range(4097)]
        lists = [b"\3" + (4096 + name).to_bytes(4, "little") + b"\40" + b"".join(entry[1:] for entry in entries[:32])
                 for name in range(1024)]
        for what, sheet, answer, values in (
            ("4,096 entries", entries[:4096], 0, (4096, 0, 16384)), ("4,097 entries", entries, 8, (4096,)),
            ("32,768 listed names", entries[:32] + lists, 0, (1056, 32768, 102528)),
            ("32,769 listed names", entries[:32] + lists + [b"\3\40\0\0\0\1\0\0\0\0"], 8, (1056,)),
        ):
            told(what, b"".join(sheet), answer, values, f"{SHEETS}, {ROOM}")
        self.agree("the examples' numbers", (met, f"{SHEETS}, {ROOM}"), ({0, 5, 6, 7, 8, 12, 13, 14}, RULES))

    def test_writing(self):
        library, met = load(), set()
        for place, cells in rows(SHEETS, "Writing", 9):
            name, count, class_, grower, room, answer, at = (number(cells[i]) for i in (0, 1, 3, 4, 5, 6, 7))
            names = [int(word) for word in cells[2].split()]
            entry = Entry(name, count, class_, grower, (c.c_uint32 * 32)(*names))
            length = room + 3
            out = c.create_string_buffer(b"\7" * length, length)
            written = library.tg_write_entry(out, room, 0, entry)
            met.add(written.number)
            self.agree(" ".join(cells[:5]), ((written.number, written.at), "tg_write_entry"), ((answer, at), place))
            wanted = bytes.fromhex(cells[8].strip("`")) if answer == 0 else b""
            wanted = wanted.ljust(length, b"\7").hex()
            self.agree(" ".join(cells[:5]), (out.raw.hex(), "tg_write_entry's output"), (wanted, place))
        self.agree("the examples' numbers", (met, f"{SHEETS}, Writing"), ({0, 14, 15}, RULES))
