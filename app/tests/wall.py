"""The page: what it says, in a real browser by its DOM, and how it is written and served.

wall.py PROGRAM FOLDER   (needs Chromium)
"""

import http.client
import os
import re
import resource
import shutil
import signal
import socket
import sqlite3
import subprocess
import time

import browser
import common
from common import check, one_line, run, same

GREEN = "rgb(0, 105, 77)"
HOUR = 3600

# Names and text that try to be markup, to run, or to turn the text around.
HOSTILE = [
    b"<script>window.pwned=1<!--.xml",
    b"\"><img src=x onerror=window.pwned=1>.xml",
    b"' onmouseover='window.pwned=1.xml",
    b"&lt;b&gt;&amp;.xml",
    "\u202exml.exe\u202c.xml".encode(),
    "\u2066a\u2069\u200b.xml".encode(),
    b"line\nfeed\x1b[31mred\x07.xml",
    b"not\xff\xfeutf8.xml",
    "привет-שלום.xml".encode(),
]
HOSTILE_DRAFT = (
    "<document><id root=\"&lt;script&gt;window.pwned=1&lt;/script&gt;\"/><title>\u202e</title><!-- </pre><script>window.pwned=1</script> -->"
    "<bad onload='window.pwned=1'>'\"><![endif]--><img src='x' onerror='window.pwned=1'/></bad></document>\n"
).encode()


def clock(seconds):
    return time.strftime("%Y-%m-%d %H:%M", time.gmtime(seconds))


def sql(store, statement, *values):
    with sqlite3.connect(store) as database:
        database.execute(statement, values)
    database.close()


class Wall:
    def __init__(self, program, folder):
        self.program, self.folder = program, folder
        self.store, self.page = os.path.join(folder, "store"), os.path.join(folder, "wall.html")
        self.browser = browser.Browser(os.path.join(folder, "profile"))

    def night(self, store=None):
        """The small night of the examples, with what came later."""
        store = store or self.store
        if os.path.exists(store):
            os.remove(store)
        for words in [["night", "--store", store, "--tables", "tables.txt", "drafts"], ["add", "--store", store, "later.txt"]]:
            answer = run(self.program, *words, cwd=common.EXAMPLES)
            check(answer.status < 3, f"{words}: {answer}")

    def show(self, *words, script=True):
        answer = run(self.program, "wall", "--store", self.store, "--out", self.page, *words)
        same((answer.status, answer.lines, answer.complaints), (0, [], []), "wall --out")
        self.browser.ask("Emulation.setScriptExecutionDisabled", value=not script)
        self.browser.load("file://" + self.page)

    def value(self, expression):
        return self.browser.value(expression)

    def rows(self):
        """Each row: its word, name, what stands beside it, and the colour behind the word."""
        return self.value(
            "[...document.querySelectorAll('details')].map(row => [row.querySelector('.word').textContent, row.querySelector('bdi').textContent,"
            " row.querySelector('.more').textContent, getComputedStyle(row.querySelector('.word')).backgroundColor])"
        )

    def shown(self, selector):
        """The text of what is shown; none where it is hidden."""
        return self.value(
            f"(e => e && e.getClientRects().length && getComputedStyle(e).visibility == 'visible' ? e.innerText : null)(document.querySelector({selector!r}))"
        )


def contrast(wall):
    """Words on their colours can be read: a contrast of 4.5 at least, and each state is told from the others by more than its hue."""
    colours = wall.value(
        "[...document.querySelectorAll('.word')].map(e => getComputedStyle(e)).map(s => [s.color, s.backgroundColor])"
    )

    def light(colour):
        parts = [int(part) / 255 for part in re.findall(r"\d+", colour)[:3]]
        parts = [part / 12.92 if part <= 0.03928 else ((part + 0.055) / 1.055) ** 2.4 for part in parts]
        return 0.2126 * parts[0] + 0.7152 * parts[1] + 0.0722 * parts[2]

    def ratio(a, b):
        a, b = sorted([light(a), light(b)])
        return (b + 0.05) / (a + 0.05)

    for ink, paper in colours:
        check(ratio(ink, paper) >= 4.5, f"the contrast of {ink} on {paper} is {ratio(ink, paper)}")
    papers = sorted({paper for _, paper in colours})
    for at, one in enumerate(papers):
        for other in papers[at + 1:]:
            check(ratio(one, other) >= 2.5, f"{one} and {other} are as light as each other: {ratio(one, other)}")


def as_it_is(wall):
    """The small night: states, order, words, places; nothing from outside; nothing for the browser to complain of."""
    wall.show()
    expected = [
        ["refused", "drafts/marsh-request.xml", "line 15: not well formed", "rgb(0, 0, 0)"],
        ["broken", "drafts/oslo-works-registration.xml", "4 findings: 9, 12, 29, 35", "rgb(230, 138, 0)"],
        ["broken", "drafts/copper-kettle-request.xml", "1 finding: 21", "rgb(230, 138, 0)"],
        ["clean", "drafts/bramble-request.xml", "", GREEN],
        ["clean", "drafts/pine-street-registration.xml", "", GREEN],
    ]
    same(wall.rows(), expected, "the rows of the page")
    same(wall.value("[...document.querySelectorAll('h1 span')].map(e => e.textContent)"), ["1 refused", "2 broken", "2 clean"], "the counts")
    files = wall.value("[...document.querySelectorAll('.files bdi')].map(e => e.parentElement.innerText)")
    check(len(files) == 2 and files[0].startswith("tables.txt the night's tables, taken in 20") and files[1].startswith("later.txt added 20"), f"the files: {files}")
    same(wall.shown("#old"), None, "a fresh page says that it is old")
    check(re.fullmatch(r"Written \d{4}-\d\d-\d\d \d\d:\d\d; store last changed \d{4}-\d\d-\d\d \d\d:\d\d", wall.shown(".asof")), "when it was written")
    size = "parseFloat(getComputedStyle(document.querySelector({})).fontSize)"
    wall.browser.ask("Emulation.setDeviceMetricsOverride", width=1920, height=1080, deviceScaleFactor=1, mobile=False)
    for selector, least in [("h1", 90), (".draft summary", 45), (".asof", 45)]:
        check(wall.value(size.format(repr(selector))) >= least, f"{selector} is small on a screen of 1920 points")
    contrast(wall)

    # A row opens its list.
    row = "document.querySelectorAll('details')[2]"
    same(wall.value(f"{row}.querySelector('.body').checkVisibility({{contentVisibilityAuto: true}})"), False, "a closed row")
    wall.value(f"{row}.querySelector('summary').click()")
    text = wall.value(f"{row}.querySelector('.body').innerText")
    path = "/document/author/assignedEntity/representedOrganization/id[2]"
    for part in ["21", "line 14, column 9", path, '<id extension="4382"', "002 1.4.2"]:
        check(part in text, f"the open row lacks {part}: {text}")
    same(wall.value(f"{row}.querySelector('mark').textContent"), "<id", "what is marked")

    # Paper has all rows open, by the style alone.
    wall.browser.ask("Emulation.setEmulatedMedia", media="print")
    heights = wall.value("[...document.querySelectorAll('.body li, .body pre')].map(e => e.getBoundingClientRect().height)")
    check(len(heights) >= 6 and min(heights) > 0, f"on paper: {heights}")
    wall.browser.ask("Emulation.setEmulatedMedia", media="")

    same(wall.browser.requests(), ["file://" + wall.page], "what the page asks for")
    same(wall.browser.complaints(), [], "what the browser says")
    same(wall.value("document.querySelectorAll('[src],[href],link,iframe,object,embed,form').length"), 0, "what comes from outside")


def stale(wall):
    """A verdict that does not stand for all files is not clean, and not green."""
    name = b"drafts/bramble-request.xml"
    sql(wall.store, "UPDATE verdict SET files = substr(files, 1, 32) WHERE name = ?", name)
    wall.show()
    row = [row for row in wall.rows() if row[1] == name.decode()][0]
    same(row[:3], ["not judged", name.decode(), "not judged under later.txt; before that clean"], "a verdict that lacks a file")
    check(row[3] != GREEN, "a verdict that lacks a file is green")
    same(wall.value("[...document.querySelectorAll('h1 span')].map(e => e.textContent)"), ["1 refused", "1 not judged", "2 broken", "1 clean"], "the counts")
    contrast(wall)
    answer = run(wall.program, "verify", "--store", wall.store)
    check(answer.status == 1 and "other files" in answer.lines[0], f"verify of a verdict that lacks a file: {answer}")

    # Verdicts under files that the store does not have.
    wall.night()
    with sqlite3.connect(wall.store) as database:
        (files,) = database.execute("SELECT files FROM verdict").fetchone()
    database.close()
    sql(wall.store, "UPDATE verdict SET files = ?", files + bytes(32))
    wall.show()
    same({row[2].split(";")[0] for row in wall.rows()}, {"judged under tables that the store no longer has"}, "verdicts under other tables")
    same([row[0] for row in wall.rows() if row[3] == GREEN], [], "rows that are green")
    wall.night()


def grows_old(wall):
    """A page whose store was not touched for long says so, at the top, and shows nothing in green; so does one that has hung for long."""
    then = int(time.time()) - 13 * HOUR
    sql(wall.store, "UPDATE store SET touched = ?", then)
    for script in [True, False]:
        wall.show(script=script)
        same(wall.shown("#old"), f"This page is old: the store was last changed at {clock(then)}, more than 12 hours from now.", "an old page")
        same([row[1] for row in wall.rows() if row[3] == GREEN], [], "what is green on an old page")
    top = wall.value("document.getElementById('old').getBoundingClientRect().top <= document.querySelector('h1').getBoundingClientRect().top")
    check(top, "an old page does not say so at the top")
    wall.show("--old-after", "14")
    same(wall.shown("#old"), None, "a page that may be 14 hours old")
    sql(wall.store, "UPDATE store SET touched = ?", int(time.time()) + 13 * HOUR)
    wall.show()
    check(wall.shown("#old") is not None, "a store that was touched tomorrow is not called old")

    sql(wall.store, "UPDATE store SET touched = ?", int(time.time()))
    wall.show()
    same(wall.shown("#old"), None, "a fresh page")
    wall.value("(real => Date.now = () => real() + 13 * 3600 * 1000)(Date.now.bind(Date)), 0")
    check(wall.browser.wait("!document.getElementById('old').hidden", 30), "a page that hangs for 13 hours does not grow old")
    same([row[1] for row in wall.rows() if row[3] == GREEN], [], "what is green on a page that has grown old")
    wall.show(script=False)
    check(clock(time.time())[:13] in wall.shown(".asof"), "without script the time of writing is not shown")
    wall.night()


def hostile(wall):
    """Names and text of drafts are text, and show what is in them."""
    drafts = os.path.join(wall.folder, "hostile")
    shutil.rmtree(drafts, ignore_errors=True)
    os.makedirs(drafts)
    for number, name in enumerate(HOSTILE):
        with open(os.path.join(os.fsencode(drafts), name), "wb") as file:
            file.write(HOSTILE_DRAFT if number % 2 else HOSTILE_DRAFT.replace(b"\n", b"</document>"))
    os.symlink("nowhere", os.path.join(drafts, "<i>gone.xml"))
    rows = os.path.join(drafts, "<b>rows\u202e.txt")
    shutil.copy(os.path.join(common.EXAMPLES, "tables.txt"), rows)
    os.remove(wall.store)
    answer = run(wall.program, "night", "--store", wall.store, "--tables", rows, drafts)
    same(answer.status, 3, f"a night with a draft that is not there: {answer}")
    check(not re.search(rb"[\x00-\x09\x0b-\x1f\x7f]|\xe2\x80[\xa8-\xae]|\xe2\x81[\xa6-\xa9]|\xff", answer.raw), f"raw characters on the terminal: {answer.raw}")
    wall.show()
    for row in range(len(HOSTILE) + 1):
        wall.value(f"document.querySelectorAll('summary')[{row}].click()")
    names = [name for _, name, _, _ in wall.rows()]
    same(len(names), len(HOSTILE) + 1, "rows")
    for part in ["<script>window.pwned=1<!--.xml", '"><img src=x onerror=window.pwned=1>.xml', "' onmouseover='window.pwned=1.xml", "&lt;b&gt;&amp;.xml",
                 "\\u{202e}xml.exe\\u{202c}.xml", "\\u{2066}a\\u{2069}\\u{200b}.xml", "line\\nfeed\\u{1b}[31mred\\u{7}.xml", "not\\xff\\xfeutf8.xml", "привет-שלום.xml"]:
        check(any(name.endswith(part) for name in names), f"no row is named {part}: {names}")
    same([row[:2] for row in wall.rows() if row[0] == "not judged"], [["not judged", os.path.join(drafts, "<i>gone.xml")]], "the draft that is not there")
    same(wall.value("window.pwned"), None, "what drafts ran")
    same(wall.value("[document.scripts.length, document.images.length, document.querySelectorAll('main h1, i, main > b, [onload], [onerror], [onmouseover]').length]"), [1, 0, 0], "elements that drafts made")
    same(wall.value("/[\\u202a-\\u202e\\u2066-\\u2069\\u200b\\u0000-\\u0008\\u000b-\\u001f]/.test(document.documentElement.textContent)"), False, "raw characters on the page")
    same(wall.browser.complaints(), [], "what the browser says")
    wall.night()


def written(wall):
    """The page is there whole or as it was."""
    before = common.bytes_of(wall.page)
    other = os.path.join(wall.folder, "other")
    with open(other, "w") as file:
        file.write("no store")
    one_line(run(wall.program, "wall", "--store", other, "--out", wall.page), 3, "is no store", "wall of no store")
    one_line(run(wall.program, "wall", "--store", os.path.join(wall.folder, "none"), "--out", wall.page), 3, "there is no store", "wall of nothing")
    one_line(run(wall.program, "wall", "--store", wall.store, "--out", os.path.join(wall.folder, "no", "page")), 3, "cannot be written", "a folder that is not there")
    one_line(run(wall.program, "wall", "--store", wall.store, "--out", wall.folder), 3, "cannot be written", "a page that is a folder")
    one_line(run(wall.program, "wall", "--store", wall.store), 3, "--out", "a wall that goes nowhere")

    def little():
        signal.signal(signal.SIGXFSZ, signal.SIG_IGN)
        resource.setrlimit(resource.RLIMIT_FSIZE, (4096, 4096))

    one_line(run(wall.program, "wall", "--store", wall.store, "--out", wall.page, preexec_fn=little), 3, "cannot be written", "a page that does not fit")
    same(common.bytes_of(wall.page), before, "the page after all these")
    left = [name for name in os.listdir(wall.folder) if name.startswith(".")]
    same(left, [], "what is left beside the page")

    # A link is followed, who may read a page stays as it was, and a device is written to, not replaced.
    link = os.path.join(wall.folder, "link.html")
    if os.path.lexists(link):
        os.remove(link)
    os.symlink("wall.html", link)
    os.chmod(wall.page, 0o640)
    same(run(wall.program, "wall", "--store", wall.store, "--out", link).status, 0, "a page behind a link")
    check(os.path.islink(link) and os.stat(wall.page).st_mode & 0o777 == 0o640, "a link or the rights of a page were lost")
    os.chmod(wall.page, 0o644)
    pipe = os.path.join(wall.folder, "pipe")
    if os.path.exists(pipe):
        os.remove(pipe)
    os.mkfifo(pipe)
    reader = subprocess.Popen(["timeout", "60", "cat", pipe], stdout=subprocess.PIPE)
    same(run(wall.program, "wall", "--store", wall.store, "--out", pipe).status, 0, "a page into a pipe")
    check(reader.communicate()[0].startswith(b"<!DOCTYPE html>") and not os.path.isfile(pipe), "a page did not come through a pipe")


def asked(port, method="GET", path="/", host=None):
    connection = http.client.HTTPConnection("127.0.0.1", port, timeout=60)
    connection.request(method, path, headers={"Host": host} if host else {})
    answer = connection.getresponse()
    text = answer.read().decode()
    connection.close()
    return answer, text


def served(wall):
    """The page on the loopback address: the store as it is at each request."""
    words = [wall.program, "wall", "--store", wall.store, "--listen", "0"]
    server = subprocess.Popen(words, stdout=subprocess.PIPE, stderr=subprocess.PIPE)
    try:
        line = server.stdout.readline().decode()
        place = re.fullmatch(r"the wall is at http://127\.0\.0\.1:(\d+)/\n", line)
        if not check(place, f"what is said of the address: {line}"):
            return
        port = int(place[1])
        answer, text = asked(port)
        same((answer.status, answer.getheader("Content-Type"), answer.getheader("Cache-Control")), (200, "text/html; charset=utf-8", "no-store"), "GET /")
        check('<meta http-equiv="refresh" content="60">' in text, "a served page is not asked for again")
        for words, status in [(("GET", "/other"), 404), (("GET", "/../store"), 404), (("POST", "/"), 405), (("GET", "/", "rows.example"), 403), (("GET", "/", "localhost"), 200)]:
            same(asked(port, *words)[0].status, status, f"{words}")

        wall.browser.ask("Emulation.setScriptExecutionDisabled", value=False)
        wall.browser.load(f"http://127.0.0.1:{port}/")
        same([row[0] for row in wall.rows()], ["refused", "broken", "broken", "clean", "clean"], "the served page")
        wall.value("document.querySelectorAll('summary')[1].click()")
        wall.browser.wait("sessionStorage.getItem('open')", 5)
        wall.browser.load(f"http://127.0.0.1:{port}/")
        same(wall.value("[...document.querySelectorAll('details')].map(row => row.open)"), [False, True, False, False, False], "rows that were open")

        again = os.path.join(wall.folder, "again")
        wall.night(again)
        answer = run(wall.program, "night", "--store", again, "--tables", "tables.txt", "drafts/bramble-request.xml", cwd=common.EXAMPLES)
        same(answer.status, 0, "a night of one clean draft")
        os.replace(again, wall.store)
        check("<h1><span class=\"clean\">1 clean</span></h1>" in asked(port)[1], "the page is not of the store as it is now")

        answer = run(wall.program, "wall", "--store", wall.store, "--listen", str(port))
        one_line(answer, 3, f"cannot listen on 127.0.0.1:{port}", "a port that is taken")
        one_line(run(wall.program, "wall", "--store", wall.store, "--listen", "nowhere at all"), 3, "is no address", "no address")

        with open(wall.store, "r+b") as file:
            file.write(b"no store")
        answer, text = asked(port)
        check(answer.status == 503 and "is no store" in text and "clean" not in re.sub("<style>.*</style>", "", text, flags=re.S), f"a store that went bad: {answer.status} {text[-300:]}")
        # Readers that say nothing, one after the other, do not keep others from the page.
        idle = []
        for _ in range(8):
            idle.append(socket.create_connection(("127.0.0.1", port)))
            time.sleep(0.3)
        same(asked(port)[0].status, 503, "a request beside idle readers")
        for connection in idle:
            connection.close()
        check(server.poll() is None, "the server ended")
    finally:
        server.kill()
        server.wait()
        server.stdout.close()
        server.stderr.close()
    os.remove(wall.store)
    wall.night()


def main():
    program, folder, _ = common.arguments("")
    wall = Wall(program, folder)
    wall.night()
    for part in [as_it_is, stale, grows_old, hostile, written, served]:
        part(wall)
    wall.browser.close()
    common.end("wall")


main()
