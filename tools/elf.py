"""The little that is asked of an object file: how much code, how many constants and how much data it has, and what it needs."""
import struct


class Elf:
    def __init__(self, path):
        with open(path, "rb") as f:
            self.data = f.read()
        wide = self.data[4] == 2
        at, size, count, names = self.header(wide)
        sections = [self.section(at + i * size, wide) for i in range(count)]
        allocated, executable, writable, nothing = 2, 4, 1, 8
        kept = [s for s in sections if s["flags"] & allocated and s["type"] != nothing]
        self.code = sum(s["size"] for s in kept if s["flags"] & executable)
        self.constants = sum(s["size"] for s in kept if not s["flags"] & (executable | writable))
        self.data_size = sum(s["size"] for s in sections if s["flags"] & allocated and s["flags"] & writable)
        self.needed = sorted(n for s in sections if s["type"] == 2 for n in self.undefined(s, sections[s["link"]], wide))

    def header(self, wide):
        at, = struct.unpack_from("<Q" if wide else "<I", self.data, 40 if wide else 32)
        return (at, *struct.unpack_from("<HHH", self.data, 58 if wide else 46))

    def section(self, at, wide):
        form, keys = ("<IIQQQQIIQQ", "<IIIIIIIIII")[not wide], ("name", "type", "flags", "address", "offset", "size", "link", "info", "align", "entry")
        return dict(zip(keys, struct.unpack_from(form, self.data, at)))

    def undefined(self, table, strings, wide):
        for at in range(table["offset"] + table["entry"], table["offset"] + table["size"], table["entry"]):
            name, place = struct.unpack_from("<IBBH", self.data, at)[::3] if wide else struct.unpack_from("<IIIBBH", self.data, at)[::5]
            start = strings["offset"] + name
            text = self.data[start:self.data.index(b"\0", start)].decode()
            if place == 0 and text:
                yield text
