"""That nothing which was written is lost, in two tabs and behind a killed browser, for edit_test."""

import os
import time

import browser

OWN = "scatter 1\nnodes 1\ngroup 0 1\n# für ä\n"
MORE = "client 1\nput a x\nend\ngo 1\nsettle 10\n"
STORED, OTHER = "lost_answer", "grow_and_shrink"
TEXT = "ways.now.text"
SHOWN = "typeof ways === 'object' ? ways.now?.text : ''"  # also while the page is loaded


class Kept:
    """The texts of the page, in a browser whose profile stays."""

    def __init__(self, program, served, checks, folder):
        self.program, self.served, self.checks = program, served, checks
        self.profile = os.path.join(folder, "profile")
        self.folder = folder
        self.page = None

    def wait(self, what, code, wanted=True):
        self.checks.same(what, self.page.until(code, wanted), wanted)

    def open(self):
        self.page.open(self.served.address)
        self.wait("the page", "Boolean(ways.now) && page.most < Infinity")

    def write(self, text):
        """Writes a text in place of the one that is there, as by the keyboard."""
        self.page.value("find('text').focus(); find('text').select()")
        self.page.ask("Input.insertText", text=text)
        self.wait("what is written", TEXT, text)
        self.written()

    def written(self):
        self.wait("it is kept", "!keep.isWriting && keep.next === null")

    def choose(self, name):
        self.page.value(
            f"find('stored').value = '{name}'; find('stored').dispatchEvent(new Event('change'))"
        )

    # ---- what is tested

    def stays(self):
        """After a reload, after back, and in a new tab as its beginning."""
        self.open()
        self.checks.same(
            "a first text", self.page.value(f"{TEXT}.startsWith('scatter 1')"), True
        )
        self.write(OWN)
        self.page.ask("Page.reload")
        self.wait("after a reload", SHOWN, OWN)
        self.write(OWN + MORE)
        self.page.value("results.openTab('rows')")
        self.wait("the rows", "results.rows > 0 && results.frame.isReady")
        count = self.page.value("history.length")
        self.write(OWN)
        self.wait("the rows of the change", "find('no-rows').textContent", "This run has no rows.")
        self.write(OWN + MORE)
        self.wait("rows again", "results.rows > 0 && results.frame.next === null")
        self.checks.same("rows are no places of back", self.page.value("history.length"), count)
        self.page.value("location.href = 'about:blank'")
        self.wait("away", "location.href", "about:blank")
        self.page.value("history.back()")
        self.wait("after back", SHOWN, OWN + MORE)

    def two_tabs(self):
        """Two tabs have a text each; a new one begins as the last that was changed."""
        first = self.page.new_tab()
        second = self.page.session
        self.open()
        self.checks.same("a new tab begins as the last", self.page.value(TEXT), OWN + MORE)
        self.write(OWN)
        self.page.session = first
        self.checks.same("the first tab stays", self.page.value(TEXT), OWN + MORE)
        self.page.ask("Page.reload")
        self.wait("the first tab after a reload", SHOWN,
                  OWN + MORE)
        self.page.session = second
        self.wait("the second tab stays", TEXT, OWN)

    def asks(self):
        """A stored scenario does not take the place of a changed text unasked; undo brings it back."""
        self.write(OWN + "# more\n")
        self.choose(STORED)
        self.wait("it asks", "find('question').open")
        self.page.click("#question-no")
        self.checks.same("no", self.page.value(TEXT), OWN + "# more\n")
        self.choose(STORED)
        self.wait("it asks again", "find('question').open")
        self.page.click("#question-yes")
        self.wait("yes", f"{TEXT}.includes('drop c1 1')")
        self.page.click("#undo")
        self.wait("undo brings it back", TEXT, OWN + "# more\n")
        self.page.click("#redo")
        self.wait("and redo the other", f"{TEXT}.includes('drop c1 1')")
        self.choose(OTHER)
        self.wait("another one", f"find('shows').textContent.startsWith('{OTHER}: ')")
        self.checks.same("unasked", self.page.value("find('question').open"), False)

    def links(self):
        """A link holds the text, and opens it."""
        self.write(OWN + MORE)
        self.page.click("#link")
        self.wait("the link", "find('link-text').value.includes('#text=')")
        link = self.page.value("find('link-text').value")
        self.page.click("#link-close")
        before = self.page.new_tab()
        self.page.ask("Page.navigate", url=link)
        self.wait("the text of a link", SHOWN, OWN + MORE)
        self.wait("the address lets it go", "location.hash", "")
        self.page.value("openLink('x#text=!!').catch((fault) => { window.said = fault.message; })")
        self.wait("a broken link", "window.said", "this link holds no text that can be read")
        self.page.session = before

    def files(self):
        """A text is saved as a file, and opened from one."""
        down = os.path.join(self.folder, "down")
        os.makedirs(down, exist_ok=True)
        session, self.page.session = self.page.session, None
        self.page.ask("Browser.setDownloadBehavior", behavior="allow", downloadPath=down)
        self.page.session = session
        self.write(OWN + MORE)
        self.page.click("#save")
        until = time.monotonic() + browser.SECONDS
        while not os.listdir(down) and time.monotonic() < until:
            time.sleep(0.05)
        time.sleep(0.2)
        names = os.listdir(down)
        self.checks.same("one file", len(names), 1)
        file = os.path.join(down, names[0])
        with open(file, "rb") as saved:
            self.checks.same("what is saved", saved.read().decode(), OWN + MORE)
        with open(file, "wb") as other:
            other.write((OWN + "# other\n").encode())
        root = self.page.ask("DOM.getDocument")["root"]["nodeId"]
        node = self.page.ask("DOM.querySelector", nodeId=root, selector="#file")["nodeId"]
        self.page.ask("DOM.setFileInputFiles", files=[file], nodeId=node)
        self.wait("the opened file", TEXT, OWN + "# other\n")

    def crash(self):
        """The text is there behind a killed browser."""
        self.write(OWN + "# before the crash\n")
        self.page.kill()

    def after_crash(self):
        self.open()
        self.checks.same("after a crash", self.page.value(TEXT), OWN + "# before the crash\n")

    def all(self, chromium):
        with contextless(browser.Browser(chromium, profile=self.profile)) as self.page:
            for part in (self.stays, self.asks, self.files, self.links, self.two_tabs):
                part()
            self.checks.same("what goes wrong in the page", self.page.faults(), [])
            self.crash()
        with browser.Browser(chromium, profile=self.profile) as self.page:
            self.after_crash()


class contextless:
    """A browser that may be killed before it ends."""

    def __init__(self, one):
        self.one = one

    def __enter__(self):
        return self.one.__enter__()

    def __exit__(self, *fault):
        if self.one.process.poll() is None:
            return self.one.__exit__(*fault)
        os.close(self.one.to)
        os.close(self.one.back)
        self.one.folder.cleanup()
        return False
