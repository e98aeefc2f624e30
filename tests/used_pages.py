"""What a page does with the mouse, by itself and of rare runs, for tests/page.py."""
import json
import re
import time
from pathlib import Path

from tests.written_pages import data_of, written

TOP = Path(__file__).resolve().parent.parent


def click(browser, of, shift=False):
    """Presses the mouse in the middle of an element."""
    x, y = browser.value(f"(box => [box.x + box.width / 2, box.y + box.height / 2])(document.querySelector('{of}')"
                         ".getBoundingClientRect())")
    for kind in ("mousePressed", "mouseReleased"):
        browser.call("Input.dispatchMouseEvent", type=kind, x=x, y=y, button="left", clickCount=1, modifiers=8 * shift)


def becomes(browser, expression, seconds=20):
    """Whether a page comes to this by itself."""
    end = time.monotonic() + seconds
    while not browser.value(expression):
        if time.monotonic() > end:
            return False
        time.sleep(.05)
    return True


# What is pressed on the page of the stale hit, where the page is then, and what is said there.
WHERE = "[at, document.getElementById('what').textContent, document.getElementById('play').textContent, quiz]"
PRESSED = (("#next", False, [1, "Core 0 begins: load 0x8", "play", False]),
           ("#next", False, [2, "Core 0 asks to read 0x8", "play", False]),
           ("#back", False, [1, "Core 0 begins: load 0x8", "play", False]),
           ("#jump-s", False, [50, "Core 1 reads the past: 0 from 0x0, where core 0 has already written 7", "play",
                               False]),
           ("#jump-c", True, [48, "Core 1 loads 0x10 and receives 0, at time 0", "play", False]),
           ("#first", False, [0, "PAST.trace: before the first event", "play", False]),
           ("#jump-c", False, [27, "Core 0 loads 0x8 and receives 0, at time 0", "play", False]),
           ("#quiz", False, [27, "Core 0 loads 0x8 and receives 0, at time 0", "play", True]),
           ("#quiz", False, [27, "Core 0 loads 0x8 and receives 0, at time 0", "play", False]))
# Keys that the page leaves to the browser, and one that it takes.
LEFT = (({"key": "ArrowRight", "ctrlKey": True}, True), ({"key": "ArrowRight", "altKey": True}, True),
        ({"key": "ArrowRight", "metaKey": True}, True), ({"key": "x"}, True), ({"key": "Escape"}, True),
        ({"key": "Home"}, False))


def pressed(compared, browser, path):
    """The buttons, the mouse, and the keys that the page leaves alone."""
    shown = lambda of: browser.value(f"!document.getElementById('{of}').hidden")  # noqa: E731
    browser.open(path)
    for of, shift, where in PRESSED:
        click(browser, of, shift)
        compared.same(f"after {of}", browser.value(WHERE), where)
    for key, place in (("Home", 0), ("PageDown", 1), ("PageUp", 0), ("ArrowRight", 1), ("ArrowLeft", 0)):
        browser.press(key)
        compared.same(f"after {key}", browser.value("at"), place)
    click(browser, "#next")
    browser.press(" ")  # of the page, not of the button
    for says in ("pause", "play"):
        compared.same("playing", browser.value(WHERE)[2], says)
        click(browser, "#play")
    browser.press(" ")
    browser.value("go(27) || document.getElementById('next').focus()")
    browser.press(" ")
    compared.same("space on a button", browser.value(WHERE),
                  [28, "Core 1 loads 0x0 and receives 0, at time 0", "play", False])
    browser.press("Home")
    for opened in (True, False):
        click(browser, "#help")
        compared.same("help", [shown("keys"), shown("rule")], [opened, False])
    browser.press("p")
    compared.same("no rule", browser.value("document.getElementById('rule').textContent"), "No event yet.")
    browser.press("Escape")
    browser.press("c")
    browser.value("document.getElementById('why').click()")
    compared.same("a click beside the section", [shown("rule"), browser.value("location.hash")], [False, "#27"])
    click(browser, "#cite")
    compared.same("the section", [shown("rule"), browser.value("location.hash")], [True, "#27"])
    for place, title in ((33, "Leases"), (27, "A core")):
        browser.value(f"go({place})")
        compared.same("the next event's section", browser.value("document.getElementById('rule').textContent")
                      .split("\n")[0], f"docs/PROTOCOL.md, {title}")
    browser.press("Escape")
    for key, leaves in LEFT:
        came = browser.value("document.dispatchEvent(new KeyboardEvent('keydown', {cancelable: true, "
                             f"...{json.dumps(key)}}}))")
        compared.same(f"{key} is left", [came, browser.value("at")], [leaves, 27 * leaves])


def by_itself(compared, browser, path):
    """Playing, in a quiz and to the end; another address; a window made narrow; scrolling."""
    word = "document.getElementById('play').textContent"
    browser.open(path)
    for address, place in (("#stale", 50), ("#24", 24), ("#nowhere", 0), ("#24", 24)):
        browser.value(f"location.hash = '{address}'")
        compared.same(address, becomes(browser, f"at === {place}"), True)
    browser.press("q")
    browser.value("(addresses => history.replaceState = (...of) => addresses.push(of[2]))(window.came = [])")
    browser.press(" ")
    compared.same("it plays", browser.value(word), "pause")
    compared.same("it asks", [becomes(browser, "isAsked"), browser.value(word), browser.value("window.came.join()")],
                  [True, "play", "#25,#26,#26"])
    browser.press("q")
    browser.press("End")
    browser.press("ArrowUp")
    browser.press(" ")
    compared.same("to the end", [becomes(browser, "at === run.steps.length"), browser.value(word)], [True, "play"])
    ties = "document.getElementById('ties').outerHTML"
    browser.open(f"{path}#stale")
    wide = browser.value(ties)
    browser.call("Emulation.setDeviceMetricsOverride", width=390, height=844, deviceScaleFactor=1, mobile=False)
    becomes(browser, f"{ties} !== {json.dumps(wide)}")
    narrow_now = browser.value(ties)
    browser.open(f"{path}#stale", 390, 844)
    compared.same("rows of a window made narrow", narrow_now, browser.value(ties))
    browser.open(f"{path.with_name('long.html')}#3000")
    first = "[...document.querySelectorAll('#ties > g')].some(one => one.dataset.number === '0')"
    compared.same("the first row is out of sight", browser.value(first), False)
    browser.value("document.getElementById('rows').scrollTop = 0")
    compared.same("the first row comes by scrolling", becomes(browser, first), True)


# A name that would end an attribute or begin an element.
SIGNS = '<b>&"y'
TEXTS = """JSON.stringify([document.querySelector("main").textContent, document.querySelectorAll("main *").length,
  [...document.querySelectorAll("[title]")].map(one => one.title)])"""
ENDED = "[document.getElementById('end').textContent, document.getElementById('end').className].join()"
COPY = """[document.querySelector(".copy").textContent.replace(/\\s+/g, " ").trim(),
  ...[..."iu"].map(of => document.querySelector(`.copy ${of}`).style.left)].join()"""
UNFILLED = """[...document.querySelectorAll(".who")].filter(one => {
  const part = one.getBBox().width / one.previousElementSibling.width.baseVal.value;
  return part < .8 || part > 1;
}).map(one => one.textContent).join()"""
CUT = "The run was cut: its rounds or turns are used up.,cut"


def altered(path, to, change):
    """Writes a page with other data."""
    text = change(json.dumps(data_of(path))).replace("<", "\\u003c")
    to.write_text(re.sub(r'(?s)(<script id="data"[^>]*>).*?(?=</script>)', lambda found: found[1] + text,
                         path.read_text()))


def scarce(compared, browser, player, folder):
    """Runs that were cut, one before any time but 0; a test that asks nothing in words; a page without docs."""
    text = lambda of: browser.value(f"document.getElementById('{of}').textContent")  # noqa: E731
    (folder / "unasked.litmus").write_text(re.sub('(?m)^".*"\n', "", (TOP / "examples/litmus/SB.litmus").read_text()))
    written(player, ["--limit", "4", str(folder / "unasked.litmus")], folder / "unasked.html")
    for name in ("refused", "unasked"):
        browser.open(folder / f"{name}.html")
        browser.press("End")
        compared.same(f"the end of {name}", browser.value(ENDED), CUT)
    compared.same("no question in words", [text(of) for of in ("asked", "condition", "answer")],
                  ["", "exists (0:x7=0 /\\ 1:x7=0)", ""])
    altered(folder / "SB.html", folder / "no-docs.html", lambda data: json.dumps(json.loads(data) | {"rules": {}}))
    browser.open(folder / "no-docs.html")
    for key in ("c", "p"):
        browser.press(key)
    compared.same("a rule without docs", text("rule"), "docs/PROTOCOL.md, A core\n\n")
    (folder / "owned.trace").write_text("0 W 0x0 1\n")
    written(player, ["--line-words", "8", "--limit", "5", str(folder / "owned.trace")], folder / "owned.html")
    browser.open(f"{folder / 'owned.html'}#9999")
    compared.same("a copy before the first record", browser.value(COPY), "0x0 own 0..0,0%,0%")


def named(compared, browser, player, folder):
    """Names with signs, and many cores."""
    altered(folder / "LOCK.html", folder / "signs.html", lambda data: data.replace("lock", json.dumps(SIGNS)[1:-1]))
    came = []
    for name in ("LOCK", "signs"):
        browser.open(folder / f"{name}.html")
        for at in (20, browser.value("run.steps.length")):
            browser.value(f"go({at})")
            came.append(browser.value(TEXTS))
    compared.same("names with signs", came[2:], [one.replace("lock", json.dumps(SIGNS)[1:-1]) for one in came[:2]])
    (folder / "eleven.trace").write_text("".join(f"{core} W {8 * core:#x} 1\n" for core in range(11)))
    written(player, [str(folder / "eleven.trace")], folder / "eleven.html")
    browser.open(f"{folder / 'eleven.html'}#9999")
    compared.same("names of cores that don't fill their fields", browser.value(UNFILLED), "")

# By hand, of the page of the stale hit, whose times go from 0 to 7: core 0's lease of 0x8 is to 3, three sevenths of
# the scale. The only stale hit is event 50, the only recall event 57. Nothing is renewed or evicted.
BAR = """(copy => [copy.querySelector("b").title, ...["i.left", "i.width", "u.left"].map(of => of.split(".")).map(
  ([part, of]) => copy.querySelector(part).style[of])].join())(document.querySelector("#core-0 .copy"))"""
WAITS = "document.querySelector('.message.waits').textContent.replace(/\\s+/g, ' ').trim()"
JUMPS = """[...document.querySelectorAll("#jumps button")].map(one =>
  `${one.className}${one.disabled ? "-" : ""}`).join()"""
CROSSES = "document.querySelectorAll('.cross').length"
DETAILS = ((27, BAR, "0x8 = 0,0%,42.8%,0%"), (5, WAITS, "ShReq 0x8 pts 0 version none; waits"),
           (49, JUMPS, "c,s,r behind-,l,e behind-"), (51, JUMPS, "c,s behind,r behind-,l,e behind-"),
           (49, CROSSES, 0), (50, CROSSES, 1))
LENGTHS = """RISCV LENGTHS
{ 0:x5=1; 0:x6=twelve_lette; 0:x8=thirteen_lett; }
 P0          ;
 sw x5,0(x6) ;
 sw x5,0(x8) ;
exists (twelve_lette=1)
"""
WIDE = "[...document.querySelectorAll('.copy')].map(one => one.classList.contains('wide')).join()"
SHORT = "[...document.querySelectorAll('#ties > g > g:last-child tspan')].map(one => one.textContent).join(' ')"


def without_wait(data):
    """The run of the stale hit, whose last load comes at once behind that."""
    of = json.loads(data)
    del of["steps"][50:67]
    return json.dumps(of)


def details(compared, browser, player, path):
    """A bar, a message's text, what is ahead, a crossing; names that are just short and just long; in a quiz a stale
    hit behind which a load is asked at once."""
    browser.open(path)
    for at, of, wanted in DETAILS:
        browser.value(f"go({at})")
        compared.same(f"{of} at event {at}", browser.value(of), wanted)
    (path.parent / "lengths.litmus").write_text(LENGTHS)
    written(player, [str(path.parent / "lengths.litmus")], path.parent / "lengths.html")
    browser.open(f"{path.parent / 'lengths.html'}#9999")
    compared.same("wide copies", browser.value(WIDE), "false,true")
    compared.same("names in boxes", browser.value(SHORT), "store 1 to twelve_lette store 1 to thirtee…lett")
    altered(path, path.parent / "at-once.html", without_wait)
    browser.open(path.parent / "at-once.html")
    past = []
    for key in ("s", "q", "ArrowDown"):
        browser.press(key)
        past.append(browser.value("[isAsked, document.getElementById('said').className].join()"))
    compared.same("marked as past", past, ["false,past", "false,past", "true,"])


def used(compared, browser, player, path):
    """What differs, on the page of the stale hit and others."""
    pressed(compared, browser, path)
    by_itself(compared, browser, path)
    scarce(compared, browser, player, path.parent)
    named(compared, browser, player, path.parent)
    details(compared, browser, player, path)
    return compared.faults
