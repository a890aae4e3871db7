"""A scenario made by clicks alone, for edit_test: each kind of click, an undo, and a second way."""

import json
import subprocess
import time

START = "lost_answer"
QUIET = "settle 10000"
STEP_MS = 200  # that a step may take up to 2,000 rows, where the program is fast
# 16 clients of three groups, for steps behind many rows
LARGE = "\n".join(
    [
        "scatter 1",
        "nodes 9",
        "group 0 1 2 3",
        "group 1342177280 4 5 6",
        "group 1744830464 7 8 9",
        *(
            line
            for client in range(1, 17)
            for line in (f"client {client}", *[f"put k{n} x" for n in range(20)], "end")
        ),
        *(f"go {client}" for client in range(1, 17)),
        "settle 1980",
        "",
    ]
)


class Play:
    """Steps of play in the page, beside the program called by itself."""

    def __init__(self, page, program, checks, wait):
        self.page, self.program, self.checks, self.wait = page, program, checks, wait

    def text(self):
        return self.page.value("ways.now.text")

    def report(self, text):
        run = subprocess.run(
            [self.program, "run"], input=text.encode(), stdout=subprocess.PIPE, check=False
        )
        return run.stdout.decode("latin-1")

    def is_still(self):
        """Waits until the last step is shown."""
        ended = (
            "play.isOn && !play.isBusy && page.going === 0 && results.frame.next === null"
            " && !document.querySelector('.results').classList.contains('old') && Boolean(play.steps)"
        )
        self.wait("the step is shown", ended)

    def click(self, line):
        """A click on the button of a line, which then stands behind the schedule."""
        self.is_still()
        before = self.text()
        self.page.click(f"#steps [data-line={json.dumps(line)}]")
        self.wait(f"the line {line}", "ways.now.text.trimEnd().split('\\n').pop()", line)
        self.is_still()
        return before

    def lines(self, start):
        """The lines that begin so, of which a click makes one."""
        found = self.page.value("[...document.querySelectorAll('#steps [data-line]')].map("
                                "(one) => one.dataset.line)")
        return [one for one in found if one.startswith(start)]

    def first(self, start):
        self.is_still()
        return self.click(self.lines(start)[0])

    # ---- what is tested

    def begins(self):
        """From a stored scenario, by its head alone."""
        self.wait("the page", "Boolean(ways.now) && page.most < Infinity")
        self.page.value(
            f"find('stored').value = '{START}'; find('stored').dispatchEvent(new Event('change'))"
        )
        self.wait("the stored scenario", "ways.now.text.includes('drop c1 1')")
        self.page.click("#play")
        self.is_still()
        self.page.click("#anew")
        self.wait("the head alone", "ways.now.text.trimEnd().split('\\n').pop()", "end")
        self.is_still()

    def each_kind(self):
        """Each kind of click once at least."""
        self.click("go 1")
        self.first("again ")
        self.first("deliver n1 ")
        self.first("drop n1 ")
        self.first("deliver n2 ")
        self.click("tick c1")
        self.click("tick n2")
        self.click(QUIET)
        self.page.value("find('steps').querySelector('[data-field=\"word\"]').value = 'join';"
                        "find('steps').querySelector('[data-field=\"word\"]')"
                        ".dispatchEvent(new Event('change'))")
        for word in ("split", "join"):
            self.page.value(f"play.order.word = '{word}'; play.show()")
            self.is_still()
            self.page.click("#give")
            self.wait(f"an order {word}", f"/ {word} [^\\n]*\\n$/.test(ways.now.text)")
            self.is_still()
        self.click(QUIET)
        self.page.click("#blow")
        self.wait("a storm", "/\\nstorm 1 20\\n$/.test(ways.now.text)")
        self.is_still()
        self.click("crash 3")
        self.undo()
        self.click("crash 2")
        self.page.click(f"#steps [data-line='{QUIET}']:not(:disabled), #steps [data-line='tick n1']")
        self.is_still()

    def undo(self):
        text = self.text()
        self.page.click("#undo")
        self.wait("the step is taken back", "ways.now.text.length < " + str(len(text)))
        self.is_still()
        self.checks.same("undo", self.text(), "".join(text.splitlines(True)[:-1]))

    def same_report(self):
        """The text, run by the program, gives the report that the page shows."""
        wanted = self.report(self.text())
        self.wait("the report of the clicks", "document.getElementById('report').textContent", wanted)

    def second_way(self):
        """Another way from an earlier row, beside the first one; the first row that differs."""
        first, frame = self.text(), "find('rows').contentWindow"
        way = self.page.value("ways.now.name")
        row = self.page.value(f"{frame}.go(12), 12")
        self.wait("an earlier row", "play.steps && play.steps.row", row)
        self.click("tick n3")
        self.checks.same("it is another text", self.page.value("ways.now.name") != way, True)
        self.wait("the rows up to it", "results.rows", row + 1)
        self.checks.same("the first text stays", self.page.value(
            f"ways.all.find((one) => one.name === {json.dumps(way)}).text"), first)
        self.same_report()
        self.page.value(
            f"find('other').value = {json.dumps(way)}; find('other').dispatchEvent(new Event('change'))"
        )
        self.wait("what differs", "find('apart').textContent",
                  f"the first row that differs is {row + 1}")
        self.wait("the other rows", "results.other.isReady && results.other.next === null")
        places = "[...document.querySelectorAll('iframe')].map((one) => one.contentWindow.placesNow())"
        self.page.click("#to-apart")
        wanted = f"row {row + 1}, marked {row + 1}"
        self.wait("both are there", f"{places}.join('; ')", f"{wanted}; {wanted}")

    def times(self):
        """How long a step takes behind 2,000 rows, from the click to its row; milliseconds."""
        self.page.value(f"ways.change({json.dumps(LARGE)}), playNow()")
        self.is_still()
        self.wait("many rows", "play.steps.row", 1996)
        found = []
        for _ in range(5):
            line = self.lines("deliver ")[0]
            took = self.page.value(
                "(async () => { const begun = performance.now(); const end = results.rows + 1;"
                f"document.querySelector(\"#steps [data-line='{line}']\").click();"
                "while (results.rows !== end || results.frame.next || play.isBusy)"
                " await new Promise((done) => setTimeout(done, 2));"
                "document.getElementById('rows').contentWindow.document.body.offsetHeight;"
                "return performance.now() - begun; })()"
            )
            found.append(took)
            self.is_still()
        return sorted(found)[2]

    def all(self, with_times=True):
        begun = time.monotonic()
        self.begins()
        self.each_kind()
        self.same_report()
        self.second_way()
        return self.times() if with_times else time.monotonic() - begun
