"""The table of a batch: its columns, its words, and how a row is written and read."""

COLUMNS = ("problem", "status", "seconds", "lines", "checked", "detail")
# Words of the table that aren't the program's: no answer in the time, and an end that the program doesn't have.
TIMEOUT, ERROR = "Timeout", "Error"
ACCEPTED, NOT_ACCEPTED, NOTHING = "yes", "no", "-"
ESCAPES = (("\\", "\\\\"), ("\t", "\\t"), ("\n", "\\n"), ("\r", "\\r"))


def escaped(text):
    for plain, written in ESCAPES:
        text = text.replace(plain, written)
    return text


class Row:
    """A row of the table. The problem and the detail are kept as they are written."""

    def __init__(self, problem, status, seconds, lines, checked, detail):
        self.problem, self.status, self.seconds, self.lines, self.checked, self.detail = problem, status, seconds, lines, checked, detail

    @staticmethod
    def told(problem, status, seconds, lines=None, checked=NOTHING, detail=""):
        """A row of what is known of a problem."""
        return Row(escaped(problem), status, f"{seconds:.3f}", NOTHING if lines is None else str(lines), checked, escaped(detail))

    @staticmethod
    def numbered(line):
        """The number of a job and its row, as `line` wrote them."""
        number, *columns = line.split("\t")
        return int(number), Row(*columns)

    def text(self):
        return "\t".join((self.problem, self.status, self.seconds, self.lines, self.checked, self.detail))

    def line(self, number):
        return f"{number}\t{self.text()}\n"
