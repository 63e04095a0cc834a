"""main LIBRARY DECK: how many sources and deliveries the deck in a file has, and what its first delivery takes from each source.

To run: tools/library, then python3 examples/python/main.py target/library/libbarleyhood.so examples/printed.deck; or, with the
library installed, libbarleyhood.so.0 for LIBRARY. What each call answers and writes is said in include/barleyhood.h."""
import ctypes
import sys

CELLS = 4160  # the most cells of an hour
DECK = [ctypes.c_char_p, ctypes.c_size_t]  # every call is lent a deck: its first byte and its length
CALLS = {
    "check": DECK,
    "sources": DECK,
    "deliveries": DECK,
    "price": DECK + [ctypes.POINTER(ctypes.c_int64), ctypes.c_size_t],
    "source_label": DECK + [ctypes.c_size_t],
    "delivery_label": DECK + [ctypes.c_size_t],
}


class Refused(Exception):
    """A refusal's number and place."""


class Barleyhood:
    """The library's calls on one deck."""

    def __init__(self, library, deck):
        self.calls, self.deck = ctypes.CDLL(library), deck
        for name, types in CALLS.items():
            call = getattr(self.calls, "barleyhood_" + name)
            call.argtypes, call.restype = types, ctypes.c_uint64

    def asked(self, name, *words):
        return getattr(self.calls, "barleyhood_" + name)(self.deck, len(self.deck), *words)

    def count(self, name, *words):
        """What was asked for, or the refusal that the answer stands for."""
        answer = self.asked(name, *words)
        if answer >> 32:
            raise Refused(answer >> 32, answer & 0xFFFFFFFF)
        return answer

    def label(self, name, entry):
        """A label as it stands in the deck, quotes and all."""
        answer = self.asked(name, entry)
        offset, length = answer >> 32, answer & 0xFFFFFFFF
        return '"' + self.deck[offset : offset + length].decode("ascii") + '"'

    def cells(self):
        cells = (ctypes.c_int64 * CELLS)()
        return cells[: self.count("price", cells, CELLS)]


def show(hour):
    hour.count("check")
    sources, deliveries = hour.count("sources"), hour.count("deliveries")
    print(f"sources {sources}, deliveries {deliveries}")
    cells = hour.cells()
    if deliveries:
        print(hour.label("delivery_label", 0), "takes")
    for i in range(sources):
        taken = ""
        if deliveries:
            direct, incremental, direct_cost, incremental_cost = cells[i * 4 : i * 4 + 4]
            taken = f" direct {direct} MWh for {direct_cost}, incremental {incremental} MWh for {incremental_cost}"
        at = sources * deliveries * 4 + i * 2
        print(f"{hour.label('source_label', i)}{taken} (left open: {cells[at]} MWh for {cells[at + 1]})")


def main():
    if len(sys.argv) != 3:
        sys.exit(f"usage: {sys.argv[0]} LIBRARY DECK")
    with open(sys.argv[2], "rb") as file:
        deck = file.read()
    try:
        show(Barleyhood(sys.argv[1], deck))
    except Refused as refusal:
        print("refused", *refusal.args)
        return 1
    return 0


sys.exit(main())
