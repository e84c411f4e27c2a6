"""When the records of a build's store came, as `tools/watch` keeps it in the file `program.times` beside the store."""
import bisect
import re


class Times:
    """When the records of a store came.

    Each line of the file has the words `since` or `at`, seconds since 1970, and so many records, bytes of the log and flow nodes
    as the store had then. What came between a line and a next one with `at` came at the time of that; of what stood there at a
    line with `since` no time is known. A line that does not agree with the store is of another build, and so are those behind it.
    """

    def __init__(self):
        self.ends, self.when = [], []

    @staticmethod
    def read(path, counts):
        times = Times()
        try:
            with open(path, encoding="ascii") as file:
                lines = file.read().splitlines()
        except (OSError, UnicodeDecodeError):
            return times
        for line in lines:
            found = re.fullmatch(r"(since|at) (\d+\.\d+) (\d+) (\d+) (\d+)", line)
            if found is None:
                break
            records, *counted = map(int, found.groups()[2:])
            if records > len(counts) or tuple(counted) != (counts[records - 1] if records else (0, 0)):
                break
            times.add(records, float(found[2]) if found[1] == "at" else None)
        return times

    def add(self, records, when):
        """So many records have come; those behind the ones that were known before came then, where that is known."""
        if records > (self.ends[-1] if self.ends else 0):
            self.ends.append(records)
            self.when.append(when)

    def of_record(self, record):
        """When the record with this number, from 0, came; nothing where that is not known."""
        place = bisect.bisect_right(self.ends, record) if record is not None else len(self.ends)
        return self.when[place] if place < len(self.ends) else None

    def began(self, thing):
        return self.of_record(thing.began)

    def ended(self, thing):
        return self.of_record(thing.ended)


def times_line(word, now, counts):
    log, nodes = counts[-1] if counts else (0, 0)
    return f"{word} {now:.3f} {len(counts)} {log} {nodes}\n"


def times_of_folder(folder, view):
    return Times.read(f"{folder}/program.times", view.counts)
