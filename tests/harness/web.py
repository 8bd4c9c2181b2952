"""The pages of web/ in headless browsers, beside the program: what they say of each example, clicks and keys as a person's, texts at the limit, the
lessons; and their module beside the library: changed texts, bytes of no character, numbers out of range, memory that can't grow; and its heap.

A page waits for conditions alone; nothing here depends on how long something takes.
"""
import base64
import fcntl
import hashlib
import json
import os
import random
import re
import select
import shutil
import socket
import subprocess
import sys
import tempfile
import time
from functools import partial

from harness.export import BUILT as EXPORTER
from harness.library import BINDING, LIBRARY, TOP, built, is_proved, program_at
from harness.programs import ACCEPTED, EXAMPLES, MEMORY, MOST_BYTES, REFUSED, text_of

WEB = os.path.join(TOP, "web")
WASM = os.path.join(WEB, "wasm")
KEPT = os.path.join(TOP, "dist", "inet.wasm")
# No condition is waited for longer, in seconds.
PATIENCE = 120
# As many interactions as a page runs.
LIMIT = 100_000


def has_browser():
    """Whether the pages can be tried."""
    return bool(shutil.which("chromium"))


class Page:
    """What is common to browsers: a page that `value` asks for the value of an expression, or for what a promise comes to."""

    def value(self, expression):
        raise NotImplementedError

    def leave_out_motion(self):
        pass

    def until(self, condition):
        begun = time.monotonic()
        while not self.value(f"Boolean({condition})"):
            if time.monotonic() - begun > PATIENCE:
                raise TimeoutError(f"never: {condition}")
            time.sleep(0.02)


class Chromium(Page):
    """A headless Chromium over its pipe for remote debugging."""

    def __init__(self, room, size=(1280, 900)):
        self.home = tempfile.mkdtemp(dir=room)
        ours_in, theirs_out = os.pipe()
        theirs_in, ours_out = os.pipe()
        words = ["--headless=new", "--no-sandbox", "--disable-gpu", "--disable-dev-shm-usage", "--no-first-run", "--remote-debugging-pipe"]
        words += [f"--user-data-dir={self.home}", f"--window-size={size[0]},{size[1]}", "--force-color-profile=srgb", "about:blank"]
        # It reads what is sent from 3, and writes to 4, so that ours have higher numbers.
        given = [fcntl.fcntl(end, fcntl.F_DUPFD_CLOEXEC, 10) for end in (theirs_in, theirs_out)]
        command = ["bash", "-c", f'exec chromium "$@" 3<&{given[0]} 4>&{given[1]}', "chromium", *words]
        self.process = subprocess.Popen(command, pass_fds=given, stdin=subprocess.DEVNULL, stdout=subprocess.DEVNULL, stderr=subprocess.DEVNULL)
        for end in (theirs_in, theirs_out, *given):
            os.close(end)
        self.reads, self.writes = ours_in, ours_out
        self.kept, self.last, self.session, self.faults = b"", 0, None, []

    def messages(self):
        """The next messages; breaks off where none comes."""
        while b"\0" not in self.kept:
            if not select.select([self.reads], [], [], PATIENCE)[0]:
                raise TimeoutError("Chromium doesn't answer")
            part = os.read(self.reads, 1 << 20)
            if not part:
                raise ConnectionError("Chromium ended")
            self.kept += part
        message, _, self.kept = self.kept.partition(b"\0")
        return json.loads(message)

    def send(self, method, **words):
        self.last += 1
        message = {"id": self.last, "method": method, "params": words}
        if self.session:
            message["sessionId"] = self.session
        data = json.dumps(message).encode() + b"\0"
        while data:
            data = data[os.write(self.writes, data) :]
        while True:
            said = self.messages()
            if said.get("id") == self.last:
                if "error" in said:
                    raise RuntimeError(f"{method}: {said['error']}")
                return said["result"]
            if said.get("method") == "Runtime.exceptionThrown":
                self.faults.append(said["params"]["exceptionDetails"].get("exception", {}).get("description") or str(said["params"]))
            elif said.get("method") == "Runtime.consoleAPICalled" and said["params"]["type"] == "error":
                self.faults.append(str(said["params"]["args"])[:500])
            elif said.get("method") == "Log.entryAdded" and said["params"]["entry"]["level"] == "error":
                self.faults.append(said["params"]["entry"]["text"])

    def open(self, address):
        target = self.send("Target.createTarget", url="about:blank")["targetId"]
        self.session = self.send("Target.attachToTarget", targetId=target, flatten=True)["sessionId"]
        for part in ("Runtime", "Log", "Page"):
            self.send(f"{part}.enable")
        self.send("Page.navigate", url=address)
        self.until("document.readyState === 'complete'")

    def value(self, expression):
        """The value of an expression; of a promise, what it comes to."""
        said = self.send("Runtime.evaluate", expression=expression, returnByValue=True, awaitPromise=True)
        if "exceptionDetails" in said:
            raise RuntimeError(f"{expression[:200]}: {said['exceptionDetails'].get('exception', {}).get('description')}")
        return said["result"].get("value")

    def leave_out_motion(self):
        """As readers may ask for: pictures don't move, which takes less time."""
        self.send("Emulation.setEmulatedMedia", features=[{"name": "prefers-reduced-motion", "value": "reduce"}])

    def key(self, key, modifiers=0, commands=()):
        """A key that is pressed and released: a letter, or one with a name."""
        code = {"Enter": 13, "Tab": 9, "End": 35, "Home": 36, "ArrowLeft": 37, "ArrowRight": 39}.get(key, ord(key[0].upper()))
        words = {"key": key, "windowsVirtualKeyCode": code, "modifiers": modifiers}
        if key == "Enter":
            words["text"] = "\r"
        self.send("Input.dispatchKeyEvent", type="keyDown", commands=list(commands), **words)
        self.send("Input.dispatchKeyEvent", type="keyUp", key=key, windowsVirtualKeyCode=code, modifiers=modifiers)

    def type(self, text):
        """Keys, one after another."""
        for sign in text:
            self.send("Input.insertText", text=sign)

    def click(self, element):
        """A click of the mouse on the middle of the element that an expression names."""
        self.value(f"{element}.scrollIntoView({{ block: 'nearest' }})")
        place = self.value(f"(it => ({{ x: it.x + it.width / 2, y: it.y + it.height / 2 }}))({element}.getBoundingClientRect())")
        for kind in ("mousePressed", "mouseReleased"):
            self.send("Input.dispatchMouseEvent", type=kind, button="left", clickCount=1, **place)

    def close(self):
        self.session = None
        try:
            self.send("Browser.close")
        except (OSError, RuntimeError):
            self.process.kill()
        self.process.wait()
        os.close(self.reads)
        os.close(self.writes)
        shutil.rmtree(self.home, ignore_errors=True)


class Firefox(Page):
    """A headless Firefox, by its own protocol (Marionette)."""

    def __init__(self, room):
        self.home = tempfile.mkdtemp(dir=room)
        with open(os.path.join(self.home, "user.js"), "w", encoding="utf-8") as file:
            file.write('user_pref("marionette.port", 0);\nuser_pref("browser.shell.checkDefaultBrowser", false);\n')
        words = ["firefox-esr", "--headless", "--marionette", "--no-remote", "--profile", self.home, "about:blank"]
        self.process = subprocess.Popen(words, stdin=subprocess.DEVNULL, stdout=subprocess.DEVNULL, stderr=subprocess.DEVNULL, env={**os.environ, "HOME": self.home})
        self.last, self.faults = 0, []
        port, begun = os.path.join(self.home, "MarionetteActivePort"), time.monotonic()
        while not (os.path.exists(port) and os.path.getsize(port)):
            if time.monotonic() - begun > PATIENCE or self.process.poll() is not None:
                self.process.kill()
                raise TimeoutError("Firefox doesn't start")
            time.sleep(0.05)
        with open(port, encoding="utf-8") as file:
            self.stream = socket.create_connection(("127.0.0.1", int(file.read())), timeout=PATIENCE).makefile("rwb")
        self.message()
        self.send("WebDriver:NewSession", timeouts={"script": PATIENCE * 1000, "pageLoad": PATIENCE * 1000})

    def message(self):
        """The next message: its length, a colon, and as many bytes."""
        length = b""
        while not length.endswith(b":"):
            byte = self.stream.read(1)
            if not byte:
                raise ConnectionError("Firefox ended")
            length += byte
        return json.loads(self.stream.read(int(length[:-1])))

    def send(self, command, **words):
        self.last += 1
        data = json.dumps([0, self.last, command, words]).encode()
        self.stream.write(str(len(data)).encode() + b":" + data)
        self.stream.flush()
        _, _, error, result = self.message()
        if error:
            raise RuntimeError(f"{command}: {error}")
        return result

    def open(self, address):
        self.send("WebDriver:Navigate", url=address)

    def value(self, expression):
        # A script of the page's own sees what its scripts declare.
        own = f"globalThis.found = (async () => ({expression}))().then(value => JSON.stringify(value ?? null), error => JSON.stringify({{ failed: String(error) }}));"
        script = "const [own, done] = arguments, element = document.createElement('script'); element.textContent = own; document.head.append(element); element.remove(); window.found.then(done);"
        value = json.loads(self.send("WebDriver:ExecuteAsyncScript", script=script, args=[own], sandbox=None)["value"])
        if isinstance(value, dict) and "failed" in value:
            raise RuntimeError(f"{expression[:200]}: {value['failed']}")
        return value

    def click(self, element):
        self.value(f"{element}.focus(), {element}.click()")

    def key(self, key):
        self.value(f"document.activeElement.dispatchEvent(new KeyboardEvent('keydown', {{ key: {quoted(key)}, bubbles: true }})), 0")

    def close(self):
        self.process.terminate()
        self.process.wait()
        self.stream.close()
        shutil.rmtree(self.home, ignore_errors=True)


# ---- what is tried in a page


def quoted(value):
    """A value as JavaScript."""
    return json.dumps(value).replace("\u2028", "\\u2028").replace("\u2029", "\\u2029")


class Tried:
    """What is wrong on a page."""

    def __init__(self, page):
        self.page = page
        self.wrong = []

    def need(self, holds, what):
        if not holds:
            self.wrong.append(what)

    def same(self, found, wanted, what):
        self.need(found == wanted, f"{what}: {str(found)[:300]!r}; wanted: {str(wanted)[:300]!r}")

    def shows(self, text):
        """Loads a text, and waits for what the page says of it."""
        self.page.value(f"bench.load({quoted(text)}).then(() => bench.panels.run.work).then(() => 0)")


# What the page has of a text: in words, in marks, and what was answered. Chosen pairs are followed as the picture has them.
SEEN = """(() => { const it = bench.said; return { verdict: bench.verdict.textContent, check: it.check.text, exported: it.exported ?? null, diagnosis: it.diagnosis ?? "",
  data: it.data ? JSON.parse(it.data) : null, parts: [...bench.place.querySelectorAll(".diagnosis li")].map(li => li.textContent), remedies: bench.place.querySelectorAll("[data-remedy]").length,
  marks: bench.editor.marks.map(mark => bench.text.slice(mark.from, mark.to)), total: bench.panels.run.total ?? null }; })()"""
# The net at a number of interactions: its text, what the picture is drawn from, as text, and how many agents are drawn.
NET = """(async number => { const run = bench.panels.run; await run.go(() => number); const net = run.nets.get(number).net;
  return { text: run.lines.textContent, drawn: net && module_nets.printed(net), agents: run.picture.querySelectorAll("g.agent").length, wanted: net ? run.state.agents : 0, count: run.at, pairs: run.state.pairs }; })"""
# An order by chance, step by step as by clicks: which pairs were asked for, the net after each, and where the run ends after that.
WALK = """(async () => { const run = bench.panels.run, asked = [], texts = []; await run.go(() => 0); let wrong = 0;
  while (run.state.pairs && run.at < 40) { const before = run.at, pair = Math.floor(Math.random() * run.state.pairs); await run.take(pair);
    if (run.at === before) return { wrong: "no step", asked, texts };
    const { net, said } = run.nets.get(run.at); asked.push(pair); texts.push(run.lines.textContent); wrong += net ? module_nets.printed(net) !== said.text : 0; }
  await run.go(() => run.total); return { wrong, asked, texts, text: run.lines.textContent, count: run.total }; })()"""


def wrong_refused(tried, seen, check):
    """A text that is refused: diagnosis, and the part of the text that is marked."""
    tried.same(seen["diagnosis"], check.errors.decode(), "diagnosis")
    parts = [*seen["data"]["errors"], *seen["data"]["notes"], *seen["data"]["helps"]]
    tried.same(len(seen["parts"]), len(parts), "parts")
    for part, shown in zip(parts, seen["parts"]):
        tried.need(part["message"].replace("`", "") in shown, f"message: {shown}")
    text = tried.page.value("bench.text")
    tried.same(seen["marks"], [text[slice(*part["place"]["characters"])] for part in parts if part["place"]], "marks")
    tried.same(seen["remedies"], sum(part["remedy"] is not None for part in parts), "remedies")


def wrong_run(tried, program, native, text, total):
    """The net at the first interactions and at the end, in the order of the queue and in orders by chance."""
    page = tried.page
    end = program.run(["run", "--limit", str(LIMIT)], text).output.decode()
    lines, count, _ = re.fullmatch(r"(.*)interactions: (\d+)\nstop: (\w+)\n(?:help: .*\n)?", end, re.DOTALL).groups()
    tried.same(total, int(count), "interactions")
    for number in [*range(min(4, total)), total]:
        wanted = program.run(["run", "--limit", str(number)], text).output.decode().split("interactions: ")[0]
        net = page.value(f"{NET}({number})")
        tried.same(net["text"], wanted, f"after {number}")
        tried.need(net["drawn"] in (None, wanted), f"drawn after {number}: {net['drawn']}")
        tried.same(net["agents"], net["wanted"], f"agents drawn after {number}")
    if total < LIMIT:
        walk = page.value(WALK)
        tried.same(walk["wrong"], 0, "nets that are drawn wrong")
        for step, found in enumerate(walk["texts"], 1):
            tried.same(found, native.inet.run_by(text, walk["asked"][:step])[0].text, f"after the pairs {walk['asked'][:step]}")
        tried.same((walk.get("text"), walk.get("count")), (lines, total), "an order by clicks")
        if total <= 1000:
            for _ in range(2):
                order = page.value("bench.caller.ask('order', { text: bench.text })")
                tried.same((order["text"], order["choices"]), (lines, total), "a random order")
            rounds = page.value("bench.caller.ask('rounds', { text: bench.text, workers: 4 })")
            tried.same((rounds["count"], sum(map(len, rounds["rounds"]))), (total, total), "rounds")


def wrong_example(tried, program, exporter, native, name):
    """An example in the page, beside the program."""
    try:
        text = text_of(name)
        tried.shows(text.decode())
    except UnicodeDecodeError:
        return
    check, seen = program.run(["check"], text), tried.page.value(SEEN)
    tried.same(seen["check"], check.output.decode(), "check")
    tried.same(seen["verdict"] + "\n", check.output.decode(), "verdict")
    if check.status == REFUSED:
        wrong_refused(tried, seen, check)
        return
    tried.same(seen["exported"], exporter.run([], text).output.decode(), "export")
    wrong_run(tried, program, native, text, seen["total"])
    # The verifier says yes of each rule and of the net, and pictures are drawn of each step.
    said = tried.page.value("""(async () => { bench.show("derivation"); const panel = bench.panels.derivation, said = [];
      for (let item = 0; item <= panel.program.rules.length && item < 12; item++) { await panel.choose(item); said.push(panel.verified.textContent[0] + panel.picture.querySelectorAll("g.agent").length * (panel.layout ? 1 : 0)); panel.go(Infinity); }
      bench.show("run"); return said; })()""")
    tried.need(all(it.startswith("✓") for it in said), f"verifier: {said}")


def by_name(tried, program, exporter, native, names):
    tried.page.leave_out_motion()
    for name in names:
        before = len(tried.wrong)
        wrong_example(tried, program, exporter, native, name)
        tried.wrong[before:] = [f"{name}: {what}" for what in tried.wrong[before:]]


TYPED = "type nat;\nsymbol Z : nat+;\nsymbol Era : nat-;\nrule Z[] >< Era[];\nnet () { Z ~ Era; Z ~ Era; }"


def typed(tried):
    """A program that is typed, and is wrong until its last character; then a pair that is clicked in the picture, and keys."""
    page = tried.page
    page.click("bench.editor.area")
    page.key("a", 2, ["selectAll"])
    page.type(TYPED[:-1])
    page.until("bench.verdict.textContent === 'refused E02 at 5:28' && !bench.verdict.classList.contains('old')")
    tried.same(page.value("bench.editor.shown.querySelectorAll('mark.error').length"), 1, "marks seen")
    page.type(TYPED[-1])
    page.until("bench.verdict.textContent === 'accepted: 1 types, 2 symbols, 1 rules, 4 agents'")
    tried.same(page.value("bench.text"), TYPED, "the text")
    page.click("bench.place.querySelector('.picture g[data-pair=\"1\"]')")
    page.until("bench.panels.run.lines.textContent === 'Z ~ Era\\n'")
    page.click("bench.place.querySelector('.pairs [data-pair=\"0\"]')")
    page.until("bench.panels.run.at === 2 && bench.panels.run.lines.textContent === ''")
    page.value("document.activeElement.blur()")
    for key, at in (("ArrowLeft", 1), ("Home", 0), ("ArrowRight", 1), ("End", 2)):
        page.key(key)
        page.until(f"bench.panels.run.at === {at}")
    page.click("bench.place.querySelector('[data-do=back]')")
    page.until("bench.panels.run.at === 1")
    page.click("bench.place.querySelector('[data-do=start]')")
    page.until("bench.panels.run.at === 0")
    page.value("bench.place.querySelector('.pairs button').focus()")
    page.key("Enter")
    page.until("bench.panels.run.at === 1")
    tried.need(page.value("Boolean(document.activeElement.closest('.pairs'))"), "the focus after a pair was chosen by a key")
    page.click("bench.place.querySelector('[data-do=play]')")
    page.until("bench.panels.run.at === 2 && bench.panels.run.buttons.play.textContent === 'play'")


def remedied(tried):
    """A remedy and a place of a diagnosis are clicked, and undone."""
    page = tried.page
    # A character that a string has two units for.
    wrong, right = "# 𝒳 é\n" + text_of("one_pair_of_braces").decode(), "symbol Add : nat- {nat-} {nat+};"
    tried.shows(wrong)
    page.click("bench.place.querySelector('[data-part]')")
    tried.same(page.value("bench.text.slice(bench.editor.area.selectionStart, bench.editor.area.selectionEnd)"), "Add", "the place")
    page.click("bench.place.querySelector('[data-remedy]')")
    page.until("bench.verdict.textContent.startsWith('accepted')")
    tried.need(right in page.value("bench.text"), "the remedy's words")
    page.key("z", 2, ["undo"])
    page.until("bench.verdict.textContent.startsWith('refused')")
    tried.same(page.value("bench.text"), wrong, "undone")


def panels(tried):
    """Tabs by keys, random orders, workers, the derivation and the data by clicks."""
    page = tried.page
    page.value("location.hash = '#example=factorial'")
    page.until(f"bench.panels.run.text === {quoted(text_of('factorial').decode())} && bench.panels.run.at === 0")
    page.value("(() => { for (let turn = 0; turn < 5; turn++) bench.panels.run.do('next'); })()")
    page.until("bench.panels.run.at === 5")
    page.value("(slider => { for (const value of [7, 30, 20]) { slider.value = value; slider.dispatchEvent(new Event('input')); } })(bench.panels.run.slider)")
    page.until("bench.panels.run.at === 20")
    page.click("bench.place.querySelector('[role=tab]')")
    page.key("ArrowRight")
    page.until("bench.shown === 'orders' && document.activeElement.getAttribute('aria-selected') === 'true'")
    page.click("bench.place.querySelector('[data-do=try]')")
    page.until("bench.panels.orders.progress.textContent === '100 orders: one end'")
    tried.need("interactions: 46" in page.value("bench.panels.orders.ends.textContent"), "the end of the orders")
    page.click("bench.place.querySelector('[data-do=workers4]')")
    page.until("/^46 interactions in \\d+ rounds$/.test(bench.panels.orders.roundsCount.textContent)")
    page.click("bench.place.querySelector('[data-tab=derivation]')")
    page.until("bench.panels.derivation.verified.textContent.startsWith('✓')")
    while not page.value("bench.panels.derivation.place.querySelector('[data-do=next]').disabled"):
        page.click("bench.panels.derivation.place.querySelector('[data-do=next]')")
    tried.same(page.value("bench.panels.derivation.picture.querySelectorAll('.later').length"), 0, "what the last step leaves out")
    page.click("bench.place.querySelector('[data-tab=data]')")
    tried.same(page.value("bench.panels.data.line.textContent"), page.value("bench.said.exported"), "the data")


def addressed(tried):
    """A program in the address, a damaged address, and one that has too much."""
    page = tried.page
    page.value(f"bench.load({quoted(TYPED + '  # é 𝒳')}).then(() => {{ document.getElementById('examples').value = ''; }})")
    page.click("document.getElementById('link')")
    page.until("location.hash.startsWith('#text=')")
    address = page.value("location.href")
    page.value("location.hash = '#example=sum'")
    page.until(f"bench.text === {quoted(text_of('sum').decode())}")
    page.open(address)
    page.until("globalThis.bench?.said?.exported")
    tried.same(page.value("bench.text"), TYPED + "  # é 𝒳", "the text of the address")
    for damaged in ("#text=%%%", "#text=AAAA", address.split("#")[1][:40], "#example=none"):
        page.value(f"document.getElementById('note').textContent = '', location.hash = {quoted(damaged)}")
        page.until("document.getElementById('note').textContent")
    # A text of one's own is there again after an example, and when the page is loaded anew.
    page.value("location.hash = '#example=product'")
    page.until(f"bench.text === {quoted(text_of('product').decode())} && bench.said.exported")
    page.click("bench.editor.area")
    page.key("a", 2, ["selectAll"])
    page.type("net () { } # mine")
    page.until("bench.verdict.textContent.startsWith('accepted: 0') && !bench.verdict.classList.contains('old') && !location.hash")
    page.value("(list => { list.value = 'sum'; list.dispatchEvent(new Event('change')); list.value = ''; list.dispatchEvent(new Event('change')); })(document.getElementById('examples'))")
    page.until("bench.text === 'net () { } # mine'")
    page.send("Page.reload")
    page.until("document.readyState === 'complete' && globalThis.bench?.text === 'net () { } # mine'")
    # A megabyte of blanks is some thousand letters; two are refused.
    page.value("module_address.addressOf(' '.repeat(2 ** 21)).then(it => { document.getElementById('note').textContent = ''; location.hash = it; })")
    page.until("document.getElementById('note').textContent.startsWith('The address')")


def long_texts(tried, program):
    """Texts at the limit: many lines, one line, one byte too many. What is typed meanwhile is there, and the last text is what is answered."""
    page = tried.page
    whole = text_of("sum").decode()
    for name, filler in (("lines", "# a comment that fills a line\n"), ("one line", "#" + "x" * 99)):
        text = (whole + filler * (MOST_BYTES // len(filler)))[: MOST_BYTES - 10]
        page.value(f"(() => {{ bench.editor.text = {quoted(text)}; bench.editor.area.focus(); bench.editor.area.setSelectionRange(0, 0); bench.changed(); }})()")
        page.type("#abc\n")
        page.until("bench.text.startsWith('#abc\\n') && bench.verdict.textContent.startsWith('accepted') && !bench.verdict.classList.contains('old')")
        page.type("~~~~~~")
        page.until("bench.verdict.textContent.startsWith('refused') && !bench.verdict.classList.contains('old')")
        said = program.run(["check"], page.value("bench.text").encode()).output.decode()
        tried.same(page.value("bench.verdict.textContent") + "\n", said, name)
        held = page.value("bench.text")
        page.key("End", 2, ["moveToEndOfDocument"])
        page.type("é")
        tried.need(page.value(f"bench.text === {quoted(held + 'é')}"), f"{name}: what is typed at the end")
        page.value("bench.editor.select(500000, 500007)")
        page.type("𝒳")
        tried.need(page.value(f"bench.text === {quoted(held[:500000] + '𝒳' + held[500007:] + 'é')}"), f"{name}: what is typed in the middle")
        # Twenty lines further each time, whichever part of the text is held; and to the end.
        page.value("bench.editor.select(0, 0)")
        first, frame = "Number(bench.editor.numbers.textContent.split('\\n')[0])", "new Promise(done => requestAnimationFrame(() => setTimeout(done)))"
        for turn in range(1, 101 if name == "lines" else 1):
            page.value(f"bench.editor.area.scrollTop += 400, {frame}")
            tried.same(page.value(first), 20 * turn, f"{name}: the first line that is seen")
        for _ in range(500):
            if not page.value("(area => { const top = area.scrollTop; area.scrollTop = 1e9; return area.scrollTop > top; })(bench.editor.area)"):
                break
            page.value(frame)
        tried.need(page.value("bench.editor.numbers.textContent.endsWith(String(bench.text.split('\\n').length))"), f"{name}: the last line's number")
        page.key("a", 2, ["selectAll"])
        page.type("x")
        tried.same(page.value("bench.text.slice(0, 100)"), "x", f"{name}: all replaced")
    # Of many texts at once the last is answered.
    page.value("(() => { for (let turn = 0; turn < 50; turn++) { bench.editor.text = `net () { } # ${turn}`; bench.newest.want(bench.text); } })()")
    page.until("bench.verdict.textContent === 'accepted: 0 types, 0 symbols, 0 rules, 0 agents'")
    tried.same(page.value("bench.panels.run.text"), "net () { } # 49", "the newest text")


def sights(tried):
    """Names for each button and field, a narrow window, and dark colours."""
    page = tried.page
    page.value("location.hash = '#example=one_pair_of_braces'")
    page.until("bench.place.querySelector('[data-remedy]')")
    unnamed = [node for node in page.send("Accessibility.getFullAXTree")["nodes"] if node.get("role", {}).get("value") in ("button", "textbox", "combobox", "slider", "tab", "link") and not node.get("name", {}).get("value")]
    tried.same(unnamed, [], "without a name")
    light = page.value("getComputedStyle(document.body).backgroundColor")
    page.send("Emulation.setEmulatedMedia", features=[{"name": "prefers-color-scheme", "value": "dark"}])
    tried.need(page.value("getComputedStyle(document.body).backgroundColor") != light, "dark colours")
    for name in ("factorial", "one_pair_of_braces"):
        page.value(f"location.hash = '#example={name}'")
        page.until(f"bench.text === {quoted(text_of(name).decode())} && bench.said")
        page.send("Emulation.setDeviceMetricsOverride", width=360, height=740, deviceScaleFactor=1, mobile=True)
        tried.same(page.value("document.documentElement.scrollWidth"), 360, f"{name}: the width of a narrow window")
    # What is like HTML in a text stays text.
    page.value("bench.load('<img src=x onerror=alert(1)> <b>').then(() => 0)")
    page.value("bench.load('symbol A : `<img>`+;').then(() => 0)")
    tried.same(page.value("document.querySelectorAll('img, b').length"), 0, "elements that a text makes")
    page.value("bench.load('type v; symbol v1 : v+; symbol E : v-; rule v1[] >< E[]; net () { v1 ~ E; }').then(() => bench.panels.run.work).then(() => 0)")
    tried.need("tell them apart" in page.value("bench.panels.run.picture.textContent"), "a symbol with the name of a variable")


def lessons(tried):
    """The lessons: each is shown with its programs, and each exercise fails at its start and passes with its solution."""
    page = tried.page
    names = page.value("[...document.querySelectorAll('nav a')].map(it => it.hash)")
    tried.need(len(names) >= 8, f"lessons: {names}")
    exercises = 0
    for name in names:
        page.value(f"location.hash = {quoted(name)}")
        page.until("document.querySelector(`nav a[href='${location.hash}'][aria-current=page]`) && document.querySelectorAll('main > section:not([hidden])').length === 1")
        page.value("document.querySelectorAll('section:not([hidden]) details').forEach(it => (it.open = true))")
        page.until("[...document.querySelectorAll('section:not([hidden]) .program, section:not([hidden]) .exercise')].every(it => it.bench?.said && it.bench.verdict.textContent)")
        for number in page.value("[...document.querySelectorAll('section:not([hidden]) .exercise')].map(it => it.dataset.exercise)"):
            exercises += 1
            place = f"document.querySelector('.exercise[data-exercise=\"{number}\"]')"
            result = f"{place}.querySelector('.result').textContent"
            page.until(result)
            tried.need(not page.value(result).startswith("✓"), f"exercise {number} is solved at its start")
            page.click(f"{place}.querySelector('[data-do=solution]')")
            page.until(f"{result}.startsWith('✓')")
            page.click(f"{place}.querySelector('[data-do=again]')")
            page.until(f"!{result}.startsWith('✓')")
    tried.same(exercises, page.value("module_exercises.EXERCISES.length"), "exercises")
    tried.same(page.value("[...document.querySelectorAll('main a')].filter(it => !/^(#|index.html)/.test(it.getAttribute('href'))).map(it => it.href)"), [], "links that lead away")
    page.value("location.hash = '#one-step-by-hand'")
    page.until("!document.querySelector('[data-name=one-step-by-hand]').hidden")
    page.click("document.querySelector('[data-name=one-step-by-hand] .program .left > a')")
    page.until("globalThis.bench?.said?.exported")
    tried.same(page.value("bench.text"), text_of("sum").decode(), "a program of a lesson in the playground")


def wrong_page(kind, room, address, does):
    """A trial: what is wrong with what is done on a page in a browser of its own; faults of the page are wrong too."""
    browser = kind(room)
    try:
        browser.open(address)
        browser.until("document.querySelector('nav a[aria-current]') || document.querySelector('.verdict')?.textContent")
        tried = Tried(browser)
        does(tried)
        return "; ".join([*tried.wrong, *browser.faults][:20]) or None
    finally:
        browser.close()


# ---- the module beside the library

TOKENS = [b"Z", b"S(", b")", b",", b";", b"~", b"><", b"{", b"}", b"[", b"]", b"nat", b"+", b"-", b" x ", b"rule ", b"symbol ", b"type ", b"net ", b"\xc3\xa9", b"\xff", b"#", b"\n"]
CHANGED = 600
# Limits and cells, those out of range too.
NUMBERS = [(5000, 4096), (7, 65536), (5000, 16), (0, 16), (10**12, 16), (10**12 + 1, 16), (5, 15), (5, 1048577), (5, 1048576)]
# With so many pages of 64 KiB the module begins, and can hardly do more.
FEW_PAGES = 60


def changed(accepted, others):
    """Texts with some changes by chance, the same each time. In a third of them a number becomes larger, so that many stay accepted."""
    chance = random.Random(7)
    for turn in range(CHANGED):
        text = bytearray(chance.choice(accepted if turn % 4 else others))
        for _ in range(chance.randint(1, 3)):
            place = chance.randrange(len(text) + 1)
            kind = chance.randrange(3) if turn % 3 else 2
            if kind == 0:
                text[place : place + chance.randint(1, 6)] = b""
            elif kind == 1:
                text[place:place] = chance.choice(TOKENS)
            else:
                text = text.replace(b"S(Z)", b"S(S(Z))", chance.randint(1, 4))
        yield bytes(text)


class Native:
    """The library, by Python's binding, and what it answers to a call as `answers.js` writes it."""

    def __init__(self, shared):
        sys.path.insert(0, os.path.dirname(BINDING))
        import inet  # noqa: PLC0415  (the binding stands beside the tests)

        self.inet = inet.Inet(shared)

    def answer(self, text, name, *rest):
        inet, state = self.inet, None
        if name == "version":
            return [inet.version, 0, hashlib.sha256(b"").hexdigest(), None]
        if name == "refusal":
            status, refusal = inet.refusal(text)
            return [status, 0, hashlib.sha256(b"").hexdigest(), list(refusal or [0] * 7)]
        if name == "verify":
            return [inet.verify(text, *rest), 0, hashlib.sha256(b"").hexdigest(), None]
        if name == "run_by":
            answer, state = inet.run_by(text, *rest)
        elif name == "diagnose_data":
            answer = inet._answer(inet._diagnose_data[False], text)
        else:
            answer = getattr(inet, name)(text, *rest)
        return [answer.status, len(answer.bytes), hashlib.sha256(answer.bytes).hexdigest(), list(state) if state else None]


def calls_on(native, text, numbers):
    """Calls on a text: all, and of an accepted one steps that are right, and altered ones."""
    chance = random.Random(len(text))
    yield from (["check"], ["derive"], ["diagnose"], ["diagnose_data"], ["export"], ["refusal"])
    for limit, cells in numbers:
        yield ["run", limit, cells]
        yield ["run_by", [], limit, cells]
    for many in (1, 3, 9):
        yield ["run_by", [chance.randrange(3) for _ in range(many)], 0, 65536]
    status, exported = native.inet.export(text)
    if status == ACCEPTED:
        program = json.loads(exported)
        for number, item in enumerate([*program["rules"], program["net"]][:6]):
            yield ["verify", number, item["steps"]]
            yield ["verify", number, item["steps"][:-1]]


def by_module(module, cases, *pages):
    """What the module answers to these cases, in node."""
    lines = "".join(json.dumps([base64.b64encode(text).decode(), calls]) + "\n" for text, calls in cases)
    ran = subprocess.run(["node", os.path.join(WEB, "module", "answers.js"), module, *pages], input=lines.encode(), stdout=subprocess.PIPE, stderr=subprocess.PIPE, timeout=600)
    if ran.returncode:
        raise RuntimeError(f"node: {ran.stderr[-400:]!r}")
    return [json.loads(line) for line in ran.stdout.splitlines()]


def all_examples():
    return [name.removesuffix(".inet") for name in sorted(os.listdir(EXAMPLES)) if name.endswith(".inet")]


def wrong_module(module, native):
    """What is wrong with the module's answers beside the library's."""
    examples = [text_of(name) for name in all_examples()]
    limits = [b"", b"\xff\xfe", b"\xed\xa0\x80", b"net () { }", b"net () { " + b"S(" * 300 + b"x" + b")" * 300 + b" ~ y; }"]
    # An answer that is longer than the room that is lent at first.
    many = range(40)
    limits.append(("type t; " + "".join(f"symbol C{i} : t+; symbol D{i} : t-; " for i in many) + "".join(f"rule C{i}[] >< D{j}[]; " for i in many for j in many) + "net () { }").encode())
    limits += [text_of("sum").ljust(size) for size in (MOST_BYTES, MOST_BYTES + 1)]
    cases = [(text, list(calls_on(native, text, NUMBERS[:3]))) for text in [*examples, *limits]]
    cases += [(text, list(calls_on(native, text, NUMBERS[:1]))) for text in changed([text for text in examples if native.inet.check(text).status == ACCEPTED], examples)]
    cases.append((text_of("factorial"), [["version"], *calls_on(native, text_of("factorial"), NUMBERS)]))
    wanted = [native.answer(text, *call) for text, calls in cases for call in calls]
    found = by_module(module, cases)
    asked = [(text, call) for text, calls in cases for call in calls]
    wrong = [f"{call} on {text[:60]!r}: {one}; wanted: {other}" for (text, call), one, other in zip(asked, found, wanted) if one != other]
    return "; ".join(wrong[:5]) or (None if len(found) == len(wanted) else f"{len(found)} answers to {len(wanted)} calls")


def wrong_in_little_memory(module, native):
    """What is wrong where the memory can't grow: each answer is the library's, or says that memory ran out; and later ones are as ever."""
    cases = []
    for name in ("sum", "waits_for_itself", "factorial"):
        text = text_of(name)
        for cells in (16, 4096, 1048576, 16, 65536, 16):
            cases.append((text, [["check"], ["diagnose_data"], ["export"], ["run", 1000, cells], ["run_by", [0], 1000, cells]]))
        cases.append((text.ljust(MOST_BYTES), [["check"]]))
    refused = {"run_by": b"", "diagnose_data": b""}
    wrong, short = [], 0
    found = iter(by_module(module, cases, str(FEW_PAGES)))
    for text, calls in cases:
        for call in calls:
            said, wanted = next(found), native.answer(text, *call)
            if said == wanted:
                continue
            short += 1
            line = refused.get(call[0], b"memory\n")
            if said[:3] not in ([MEMORY, len(line), hashlib.sha256(line).hexdigest()], [MEMORY, 0, hashlib.sha256(b"").hexdigest()]) or call[-1] == 16:
                wrong.append(f"{call} on {len(text)} bytes: {said}; wanted: {wanted}")
    return "; ".join(wrong[:5]) or (None if short else "memory never ran out")


def wrong_heap(room, seed, *sanitizers):
    """What is wrong with the module's heap, by requests of chance."""
    made = os.path.join(room, f"heap{seed}")
    built(["cc", "-std=c11", "-O1", "-g", *sanitizers, os.path.join(WEB, "module", "heap_test.c"), "-o", made], made)
    ran = subprocess.run([made, str(seed)], stdout=subprocess.PIPE, stderr=subprocess.STDOUT, timeout=PATIENCE)
    return None if ran.returncode == 0 and not ran.stdout else f"status {ran.returncode}, {ran.stdout[-300:]!r}"


def has_sanitizers(room):
    try:
        return bool(wrong_heap(room, 0, "-fsanitize=address,undefined", "-fno-sanitize-recover=all") is None)
    except RuntimeError:
        return False


def wrong_kept(module):
    """What is wrong with the kept module, where it is of the sources of the one that was built."""
    with open(os.path.join(TOP, "dist", "inet.from"), encoding="utf-8") as file:
        sums = dict(line.split(maxsplit=1) for line in file.read().splitlines())
    sources = subprocess.run([WASM, "sources"], stdout=subprocess.PIPE, check=True).stdout.decode().strip()
    if sums.get("module") != sources:
        return None
    with open(KEPT, "rb") as one, open(module, "rb") as other:
        return None if one.read() == other.read() else "dist/inet.wasm isn't what was built of the same sources"


def web(program):
    """All of these."""
    room = os.path.join(program.room, "web")
    os.mkdir(room)
    module = os.path.join(TOP, subprocess.run([WASM, "taken"], stdout=subprocess.PIPE, check=True).stdout.decode().strip())
    if is_proved() and shutil.which("wasm-opt"):
        if module == KEPT:
            module = built([WASM, "build"], os.path.join(TOP, "crates", "in_c", "out", "inet.wasm"))
        yield "the kept module", partial(wrong_kept, module)
    else:
        print("web: the module isn't built and compared with the kept one, which needs what was proved, and wasm-opt (tests/setup installs binaryen)")
    # They stay there, ready to be put up.
    site = os.path.join(TOP, "out", "site")
    subprocess.run([os.path.join(WEB, "build"), site, "--module", module], check=True)
    playground = f"file://{site}/index.html"
    exporter = program_at(EXPORTER, room)
    shared = built([LIBRARY, "make", os.path.join(room, "library")], os.path.join(room, "library", "lib", "libinet.so.0"))
    native = Native(shared)
    names = all_examples()
    for part in range(4):
        yield f"Chromium: examples, part {part}", partial(wrong_page, Chromium, room, playground, partial(by_name, program=program, exporter=exporter, native=native, names=names[part::4]))
    yield "Chromium: long texts", partial(wrong_page, Chromium, room, playground, partial(long_texts, program=program))
    for does in (typed, remedied, panels, addressed, sights):
        yield f"Chromium: {does.__name__}", partial(wrong_page, Chromium, room, playground, does)
    if os.path.exists(os.path.join(site, "tutorial.html")):
        yield "Chromium: lessons", partial(wrong_page, Chromium, room, f"file://{site}/tutorial.html", lessons)
    if shutil.which("firefox-esr"):
        yield "Firefox: examples", partial(wrong_page, Firefox, room, playground, partial(by_name, program=program, exporter=exporter, native=native, names=names[::12]))
        yield "Firefox: panels", partial(wrong_page, Firefox, room, playground, panels)
    if shutil.which("node"):
        yield "the module beside the library", partial(wrong_module, module, native)
        yield "the module in little memory", partial(wrong_in_little_memory, module, native)
    sanitizers = ["-fsanitize=address,undefined", "-fno-sanitize-recover=all"] if has_sanitizers(room) else []
    for seed in range(1, 4):
        yield f"the heap with seed {seed}", partial(wrong_heap, room, seed, *sanitizers)
