"""The page in a browser that has no network: its answers, and what its reader does."""
import base64
import json
import re
import urllib.parse

from chromium import Chromium, path_of_chromium
from common import check, compare
from drawing.explained import read_explained
from drawing.panels import drawn_whole
from playing.compared import decoded

# What the page itself does to run a command, for whoever asks: its worker is given its program.
ASK = """
(async () => {
  const text = (id) => document.getElementById(id).textContent;
  const bytes = (coded) => Uint8Array.from(atob(coded), (sign) => sign.charCodeAt(0));
  const coded = (parts) => { let all = ""; for (const byte of parts) all += String.fromCharCode(byte); return btoa(all); };
  const stream = new Blob([bytes(text("program"))]).stream().pipeThrough(new DecompressionStream("gzip"));
  const module = await WebAssembly.compile(await new Response(stream).arrayBuffer());
  const worker = new Worker(URL.createObjectURL(new Blob([text("worker")], { type: "text/javascript" })));
  worker.postMessage({ module });
  window.asked = async (cases) => {
    const found = [];
    for (const [words, input] of cases) {
      const told = await new Promise((resolve) => {
        worker.onmessage = ({ data }) => resolve(data);
        worker.postMessage({ words, input: bytes(input) });
      });
      found.push(told.failed ? { status: told.failed, output: "", errors: "" }
        : { status: told.status, output: coded(told.output), errors: coded(told.errors) });
    }
    return found;
  };
  return true;
})()
"""
MARKED = "CREATE STREAM Reading (room, celsius)\nCREATE QUERY hot AS SELECT Reading.room FROM Reading\nReading,2,31.5\nReading,2,<b>\n"
STREAMS = "CREATE STREAM A (x IN 0..999)\nCREATE STREAM B (x IN 0..999)\n"
# Answers many rows for seconds, and writes little; and answers few by more than is kept.
SLOW = (STREAMS + "".join(f"CREATE QUERY q{at} AS SELECT DISTINCT A.x FROM A, B WHERE A.x < B.x\n" for at in range(64))
        + "".join(f"{'AB'[at % 2]},{at * 37 % 1000}\n" for at in range(40000)))
LOUD = STREAMS + "CREATE QUERY q AS SELECT A.x FROM A, B WHERE A.x = B.x\n" + "A,1\nB,1\n" * 5000
SHOWN = "at('status').value.includes('status ') && !at('replies').classList.contains('old')"
TEXTAREA_LEAST = 16


def value_of(browser, script):
    """The value of an expression in which at(ID) is an element."""
    return browser.value(f"(() => {{ const at = (id) => document.getElementById(id); return {script}; }})()")


def waits(browser, what, script, seconds=60):
    is_so = browser.wait(f"(() => {{ const at = (id) => document.getElementById(id); return {script}; }})()", seconds)
    check(f"browser: {what}", is_so, "" if is_so else value_of(browser, "at('status').value + ' | ' + at('replies').textContent.slice(0, 200)"))


def write(browser, script):
    """Puts a script in the place of the one that stands there, as a reader who types."""
    value_of(browser, "(at('script').focus(), at('script').select(), 1)")
    browser.type(script)


def given(browser, script):
    """Puts a long script there at once."""
    value_of(browser, f"(at('script').value = {json.dumps(script)}, at('script').dispatchEvent(new Event('input')), 1)")


def opened(browser, page, fragment=""):
    browser.open("about:blank")
    browser.open(f"file://{urllib.parse.quote(page)}{fragment}")
    waits(browser, f"the page opens {fragment[:30]}", f"at('status') && {SHOWN}")


def try_answers(browser, cases, wanted):
    """The page's own worker answers as the program does; files beside the input are for Node alone."""
    browser.value(ASK)
    pairs = [(case, want) for case, want in zip(cases, wanted) if not case.folder]
    got = []
    for begin in range(0, len(pairs), 100):
        some = [[case.words, base64.b64encode(open(case.input, "rb").read()).decode()] for case, _ in pairs[begin:begin + 100]]
        got += [decoded(it) for it in browser.value(f"asked({json.dumps(some)})")]
    compare("browser", [case for case, _ in pairs], [want for _, want in pairs], got)


def try_first_sight(browser, examples):
    first = examples[0]
    check("browser: it begins with the first example", value_of(browser, "at('script').value") == first["script"])
    check("browser: with no link it says nothing of one", value_of(browser, "at('status').value").startswith("status 0, "))
    check("browser: it says its version", re.fullmatch(r"bq \d+\.\d+\.\d+", value_of(browser, "at('version').textContent")))
    waits(browser, "a picture comes", "!at('kept').hidden && at('picture').naturalWidth === 1200")
    told = value_of(browser, "at('explain').textContent")
    svg = urllib.parse.unquote(value_of(browser, "at('picture').src").partition(",")[2])
    check("browser: the picture is that of tools/draw", svg == drawn_whole(read_explained(told.split("\n"), None)), svg[:200])
    check("browser: each example can be chosen", value_of(browser, "at('example').length") == len(examples))


def try_typing(browser):
    write(browser, MARKED)
    waits(browser, "a fault is shown at its line as one types", "/has a point/.test(at('told').textContent)")
    wanted = [["line 3", "Value"], ["line 4", "Value"]]
    got = value_of(browser, "[...at('told').querySelectorAll('li')].map((it) => [it.querySelector('button').textContent, it.querySelector('.heading').textContent])")
    check("browser: each fault has its line", got == wanted, got)
    check("browser: what was typed is no example", value_of(browser, "at('example').value") == "")
    height = value_of(browser, "parseFloat(getComputedStyle(at('script')).lineHeight)")
    bands = value_of(browser, "[...document.querySelectorAll('.band')].map((it) => it.offsetTop)")
    check("browser: the bands lie on the lines", bands == [2 * height, 3 * height], bands)
    check("browser: a sign stands below the place", value_of(browser, "document.querySelector('.sign').style.left") == "10ch")
    check("browser: what is typed is shown and not read as a page", value_of(browser, "document.querySelectorAll('#told b, #replies b').length") == 0)
    value_of(browser, "(at('script').setSelectionRange(0, 0), 1)")
    browser.press("F8", 119)
    check("browser: F8 goes to the next fault", value_of(browser, "at('script').selectionStart") == MARKED.index("Reading,2,31.5") + 10)
    value_of(browser, "(at('told').querySelectorAll('button')[1].click(), 1)")
    check("browser: so does its button", value_of(browser, "at('script').value.slice(0, at('script').selectionStart).split('\\n').length") == 4)


def try_stopping(browser):
    given(browser, SLOW)
    waits(browser, "a long run says how long it runs", "at('status').value.startsWith('running')")
    check("browser: it can be stopped", not value_of(browser, "at('stop').disabled"))
    browser.press("Escape", 27)
    waits(browser, "a run that is stopped says so", "at('status').value.startsWith('stopped')", 5)
    given(browser, "CREATE STREAM S (a)\n")
    waits(browser, "the next script is answered", f"{SHOWN} && at('replies').textContent === 'ok stream S\\n'")
    given(browser, LOUD)
    waits(browser, "more replies than are kept", "/^status 5, .* more replies than this page keeps$/.test(at('status').value)")


def try_links(browser, page, examples):
    write(browser, MARKED)
    waits(browser, "a script is answered", f"{SHOWN} && /error 3 Value/.test(at('replies').textContent)")
    value_of(browser, "(at('command').value = 'run --each', at('link').click(), 1)")
    waits(browser, "a link is given", "!at('linked').hidden && at('address').value.includes('#do=run%20--each&')")
    fragment = "#" + value_of(browser, "at('address').value").partition("#")[2]
    opened(browser, page, fragment)
    check("browser: the link gives script and command back", value_of(browser, "[at('script').value, at('command').value]") == [MARKED, "run --each"])
    opened(browser, page, "#do=run&z=AAAA")
    check("browser: a link that is broken", value_of(browser, "at('status').value").startswith("the link could not be read; status 0"))
    opened(browser, page, "#example=paid-orders")
    wanted = next(it["script"] for it in examples if it["name"] == "paid-orders")
    check("browser: a link to an example", value_of(browser, "at('script').value") == wanted)
    opened(browser, page, "#do=run&t=" + base64.urlsafe_b64encode(b"CREATE STREAM S (a)\n").decode().rstrip("="))
    check("browser: a link without compression", value_of(browser, "at('replies').textContent") == "ok stream S\n")


def try_looks(browser):
    for is_dark in (False, True):
        browser.look(1400, 900, is_dark)
        ground, ink = value_of(browser, "((it) => [it.backgroundColor, it.color])(getComputedStyle(document.body))")
        light = [sum(map(int, re.findall(r"\d+", it)[:3])) for it in (ground, ink)]
        check(f"browser: colours that are {'dark' if is_dark else 'light'}", (light[0] < light[1]) == is_dark, (ground, ink))
    browser.look(360, 740, is_phone=True)
    check("browser: on a phone nothing is wider than the page", value_of(browser, "document.documentElement.scrollWidth") <= 360)
    check("browser: on a phone letters are large enough to type", value_of(browser, "parseFloat(getComputedStyle(at('script')).fontSize)") >= TEXTAREA_LEAST)
    browser.look(1400, 900)


def try_keys(browser):
    value_of(browser, "(document.activeElement.blur(), at('example').focus(), 1)")
    reached = ["example"]
    for _ in range(8):
        browser.press("Tab", 9)
        reached.append(value_of(browser, "document.activeElement.id"))
    check("browser: all can be reached by Tab", {"command", "go", "link", "script", "replies"} <= set(reached), reached)


def try_network(browser):
    said = browser.value("Promise.resolve().then(() => fetch('http://127.0.0.1:9/')).then(() => 'sent', (error) => error.name)")
    check("browser: the policy refuses to send", said == "TypeError", said)
    refused = [it for it in browser.told if "violates" in json.dumps(it) and "Security Policy" in json.dumps(it)]
    check("browser: and says so", refused)


def try_old(path, page):
    """A browser without what the page needs shows a sentence."""
    with Chromium(path) as browser:
        browser.ask("Page.addScriptToEvaluateOnNewDocument", source="delete window.DecompressionStream")
        browser.open(f"file://{urllib.parse.quote(page)}")
        waits(browser, "an old browser says what it lacks", "at('status') && document.readyState === 'complete' && at('status').value.includes('the browser cannot run it')")


def try_in_browser(page, examples, cases, wanted):
    path = path_of_chromium()
    with Chromium(path) as browser:
        browser.look(1400, 900)
        opened(browser, page)
        try_first_sight(browser, examples)
        try_typing(browser)
        try_keys(browser)
        try_looks(browser)
        try_stopping(browser)
        try_links(browser, page, examples)
        try_answers(browser, cases, wanted)
        check("browser: it asked for nothing", not browser.requests(), browser.requests())
        check("browser: nothing was thrown", not browser.faults(), browser.faults())
        try_network(browser)
    try_old(path, page)
