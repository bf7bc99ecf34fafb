"""What tools/reading and tools/pins share: games as the definitions see them, and how the reading of lines ends."""
import ctypes
import glob
import queue
import sys
import threading
import time

import definitions
import paws

SEED = 7
MOMENT = 0.01  # seconds between two looks at a thread that was told to end
KINDS = ["verb", "adverb", "noun", "adjective", "preposition", "conjunction", "pronoun"]
ROUTINES = [lambda x: 255 - x, lambda x: x // 2, lambda x: bin(x).count("1")]


def codes(text):
    return tuple(text.encode("latin-1"))


def condact(source, step):
    code, (first, second) = source.condacts[step.name].code, (step.values + [0, 0])[:2]
    if step.flag is not None:
        code, first = code + paws.INDIRECT, step.flag
    return {"code": code, "a": first, "b": second}


def story_of(path):
    """The game of a source, and the answers of the program's routines, as the definitions have them."""
    source = paws.Source.read_or_exit(path)
    system, messages, names, places = [tuple(codes(item.text) for item in source.texts[section])
                                       for section in ("/STX", "/MTX", "/OTX", "/LTX")]
    words = [{"letters": codes(word.letters.ljust(5)), "value": word.value, "class": KINDS.index(word.kind)}
             for word in source.words]
    objects = [{"text": name, "facts": {
        "noun": thing.noun, "adjective": thing.adjective, "start": thing.place, "weight": thing.weight,
        "container": "C" in thing.kind, "wearable": "W" in thing.kind}} for name, thing in zip(names, source.things)]
    exits = [tuple({"verb": row.verb, "to": row.to} for row in source.exits.get(place, [])) for place in range(len(places))]
    tables = [tuple({"verb": entry.verb, "noun": entry.noun, "condacts": tuple(condact(source, step) for step in entry.steps)}
                    for entry in table) for table in source.tables]
    return {"game": {"words": tuple(sorted(words, key=lambda word: word["letters"])), "system": system, "messages": messages,
                     "objects": tuple(objects), "locations": places, "exits": tuple(exits), "tables": tuple(tables)},
            "answers": tuple(tuple(routine(x) for x in range(256)) for routine in ROUTINES)}


def lines_beside(path):
    """The files of lines that belong to a game: NAME.lines and NAME.WAY.lines."""
    start = glob.escape(path[:-len(".paws")])
    return glob.glob(start + ".lines") + sorted(glob.glob(start + ".*.lines"))


class Reading:
    """How the reading of some lines ends, by the definitions."""

    def __init__(self, every, story, lines, seed=SEED):
        self.every, self.count = every, len(lines)
        self.ending = every.get("paw_reading.specs.Turn", "reading")(story, seed, tuple(codes(line)[:255] for line in lines))

    def pieces(self):
        """The text before the first line, and that of each line."""
        return [bytes(piece).decode("latin-1") for piece in self.every.get("paw_reading.specs.Turn", "pieces_of")(self.ending)]

    def goes_on(self):
        """Whether the game waits or is over, and wasn't stopped by a limit."""
        return self.ending[0] == "WaitsAt" or self.ending[:2] == ("Halted", ("Over",))

    def state(self):
        """The bytes of the state that a session keeps after the lines that were taken, those before the game was over; none where a
        limit stopped them."""
        if not self.goes_on():
            return ()
        taken = self.count - len(self.ending[-1]["events"])
        return self.every.get("paw_play.specs.Session", "state_after")(taken, self.ending)


def in_depth(task):
    """Does a task in a thread with room for deep calls, and gives its answer. A signal ends it, too."""
    answers = queue.SimpleQueue()

    def done():
        try:
            answers.put((task(), None))
        except BaseException as fault:  # for the main thread, which raises it anew
            answers.put((None, fault))

    sys.setrecursionlimit(200000)
    threading.stack_size(512 * 1024 * 1024)
    thread = threading.Thread(target=done, daemon=True)
    try:
        thread.start()
        answer, fault = answers.get()
    except KeyboardInterrupt:
        if thread.ident is None:  # it has only just begun, and ends with the program
            raise
        ctypes.pythonapi.PyThreadState_SetAsyncExc(ctypes.c_ulong(thread.ident), ctypes.py_object(SystemExit))
        while thread.is_alive():
            time.sleep(MOMENT)
        raise
    if fault:
        raise fault
    return answer
