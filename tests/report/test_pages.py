"""Pages of runs, opened in a browser and held against what `mavis run` prints."""

import re
import unittest

from browser import Browser
from reading import Reading
from routines import LARGE, REFUSED, RUNS
from support import PICTURES, ROOT, by_word, made_page, mavis, memory_of, run_cut, translate

BROWSER = None
HANDED = "[...document.querySelectorAll('.handed div')].map((pair) => [...pair.children].map((part) => part.textContent))"


def setUpModule():
    global BROWSER
    BROWSER = Browser()


def tearDownModule():
    BROWSER.close()


class Pages(unittest.TestCase):
    """The steps of the runs, moved through by slider, keys and buttons."""

    def setUp(self):
        BROWSER.view()

    def opened(self, name, fragment=""):
        path, status = made_page(name, RUNS[name])
        BROWSER.open(path, fragment)
        return status

    def go(self, step):
        """To a step by the slider: the value that a drag leaves it at, and its event."""
        BROWSER.run(f"document.getElementById('slider').value = {step}")
        BROWSER.run("document.getElementById('slider').dispatchEvent(new Event('input', {bubbles: true})) && null")
        return Reading(BROWSER)

    def same_memory(self, page, output):
        """Every heading, word, name, value and note that the run printed, and no more."""
        expected, found = memory_of(output), page.memory()
        self.assertEqual([heading for heading, _ in found], [heading for heading, _ in expected])
        expected, found = by_word(expected), by_word(found)
        self.assertEqual(list(found), list(expected))
        for word, (value, name, note) in expected.items():
            self.assertEqual(found[word][0], value, word)
            if name and found[word][1]:
                self.assertEqual(found[word][1:], (name, note), word)

    def arrows_lead(self, page):
        """Each pointer that a note tells of has an arrow from its row to the row that it points to."""
        rows = by_word(page.memory())
        pointers = {word: int(value) for word, (value, _, note) in rows.items() if (note or "").startswith("->") and int(value) in rows}
        self.assertEqual({arrow[0]: arrow[1] for arrow in page.arrows}, pointers)
        tops = page.tops()
        for word, value, kind, top, bottom, *_ in page.arrows:
            first, last = sorted((tops[word], tops[value]))
            self.assertTrue(first[0] <= top <= first[1] and last[0] <= bottom <= last[1], (word, value))
            self.assertEqual(kind == "outside", "outside its bounds" in rows[word][2])

    def test_first_middle_and_last(self):
        for name, options in RUNS.items():
            with self.subTest(name):
                status, output, _ = mavis("run", *options)
                self.assertEqual(self.opened(name), status)
                steps = int(BROWSER.run("document.getElementById('slider').max"))
                last = Reading(BROWSER)
                self.same_memory(last, output)
                self.arrows_lead(last)
                for step in (0, steps // 2, steps - 1):
                    page = self.go(step)
                    self.same_memory(page, run_cut(options, step))
                    self.arrows_lead(page)
                    self.assertEqual(page.at, f"Step {step} of {steps}")
                    BROWSER.picture(PICTURES / f"{name}-{step}.png")
                self.go(steps)
                BROWSER.picture(PICTURES / f"{name}.png", whole=True)

    def test_the_command_at_hand(self):
        for name, options in RUNS.items():
            with self.subTest(name):
                self.opened(name)
                spans = translate(name, (ROOT / options[0]).read_text()).command_spans
                for step in range(int(BROWSER.run("document.getElementById('slider').max")) + 1):
                    page = self.go(step)
                    self.assertEqual(page.valueText, page.says)
                    if step == 0:
                        self.assertEqual((page.line, page.marked), (None, ""))
                        continue
                    span = spans[step - 1]
                    self.assertEqual((page.line, page.marked), (span.line, span.text))
                    self.assertIn(f" command {step - 1} of {len(spans)}, line {span.line}: {span.text}.", page.says)

    def test_endings(self):
        headlines = {
            "snapshot": "Aborted in line 16: *q wanted 1 word at 5 (queue[0] in block 3), 1 word past the end of snapshot in block 3; "
            "nothing outside its bounds was touched.",
            "twelve": "Done: all 25 commands were carried out; total is 41.",
            "list": "Done: all 15 commands were carried out; load is 6.",
            "noroom": "No room in line 10: malloc(floors) asked for 3 words, and 1 was left.",
            "take": "Done: all 6 commands were carried out; stop is 7.",
            "takeshort": "Aborted in line 13: *snapshot wanted 4 words at 8 (block 8), 1 word past the end of block 8; "
            "nothing outside its bounds was touched.",
            "keep": "Done: all 5 commands were carried out; number is 7.",
        }
        for name, headline in headlines.items():
            with self.subTest(name):
                self.opened(name)
                page, output = Reading(BROWSER), mavis("run", *RUNS[name])[1]
                self.assertEqual(BROWSER.run("document.querySelector('h1').textContent"), headline)
                ending = output.split("\n\n")[0]
                self.assertEqual(BROWSER.run("document.getElementById('explanation').textContent").strip(), ending.strip())
                told = dict(re.findall(r"^  (\w+): (.*)$", ending, re.M))
                told.pop("ending", None)
                if name == "noroom":
                    told = {"asked for": "3 words", "left": "1 word of 8"}
                    self.assertIn("asks for 3 words, and 1 word of 8 is left", ending)
                self.assertEqual({term.lower(): text for term, text in page.facts}, told)

    def test_the_abort_on_the_picture(self):
        self.opened("snapshot")
        page = Reading(BROWSER)
        self.assertEqual((page.tagged("wanted"), page.tagged("read"), page.within()), ([5], [2], [3, 4]))
        self.assertEqual(page.failed, "*q")
        self.assertEqual(page.bounds, "Not followed: q, bounds [3, 5): block 3, snapshot.")
        self.assertEqual(self.go(4).facts, [])

    def test_what_commands_touch(self):
        self.opened("snapshot")
        page = self.go(1)
        self.assertEqual((page.tagged("written"), page.groups[1][0].split()[:3]), ([1], ["block", "3:", "obtained"]))
        self.assertIn("Obtained block 3 (4 words). Wrote word 1 (variable p).", page.says)
        page = self.go(2)
        self.assertEqual((page.tagged("read"), page.tagged("address taken"), page.tagged("written")), ([1], [3], [2]))
        self.assertEqual((page.within(), page.bounds), ([3, 4, 5, 6], "Followed p, bounds [3, 7): block 3."))
        self.assertEqual((self.go(3).tagged("written"), Reading(BROWSER).within()), ([3], [3, 4]))
        self.assertEqual(self.go(0).free, "Free: words 3 to 4095 (4093 of 4096).")

    def test_struct_assignments(self):
        """One that copies, and one that fails at the struct that it would write."""
        self.opened("take")
        page = self.go(2)
        self.assertEqual((page.tagged("read"), page.tagged("written")), ([1, 2, *range(5, 9)], [4, *range(9, 13)]))
        wrote = "Wrote words 9 to 12 (block 9) and word 4 (variable (words copied))."
        self.assertIn(f"Read word 2 (variable snapshot), word 1 (variable live) and words 5 to 8 (register live). {wrote}", page.says)
        self.assertEqual(page.within(), [*range(5, 13)])
        self.assertEqual(page.bounds, "Followed snapshot, bounds [9, 13): block 9. Followed live, bounds [5, 9): register live.")
        self.opened("takeshort")
        page = Reading(BROWSER)
        self.assertEqual((page.failed, page.tagged("wanted"), page.tagged("written")), ("*snapshot", [8, 9, 10], []))
        self.assertEqual(page.bounds, "Not followed: snapshot, bounds [8, 11): block 8.")

    def test_ints_with_bounds(self):
        """In edition 2 an int is drawn as a pointer is; in edition 1 it is not."""
        self.opened("keep")
        page = self.go(3)
        self.assertEqual({(word, value) for word, value, *_ in page.arrows}, {(1, 4), (3, 7), (5, 6)})
        self.assertEqual({kind for _, _, kind, *_ in page.arrows}, {"inside"})
        self.assertEqual(page.bounds, "Followed car, bounds [4, 6): block 4.")
        self.assertEqual(dict(BROWSER.run(HANDED))["Edition"], "2")
        path, _ = made_page("keep-edition-1", RUNS["keep"][:1])
        BROWSER.open(path)
        self.assertNotIn("Edition", dict(BROWSER.run(HANDED)))
        self.assertEqual({(word, kind) for word, _, kind, *_ in Reading(BROWSER).arrows}, {(1, "inside"), (2, "unbounded")})

    def test_keys_buttons_and_addresses(self):
        self.opened("list", "#step=4")
        at = lambda: BROWSER.run("document.getElementById('slider').value + location.hash")  # noqa: E731
        self.assertEqual(at(), "4#step=4")
        for key, step in (("ArrowRight", 5), ("ArrowLeft", 4), ("Home", 0), ("ArrowLeft", 0), ("End", 15), ("ArrowRight", 15)):
            BROWSER.key(key)
            self.assertEqual(at(), f"{step}#step={step}")
        BROWSER.run("document.getElementById('slider').focus()")
        BROWSER.key("ArrowLeft")
        self.assertEqual(at(), "14#step=14")
        for button, step in (("first", 0), ("next", 1), ("next", 2), ("back", 1), ("last", 15)):
            BROWSER.click(f"#{button}")
            self.assertEqual(at(), f"{step}#step={step}")
        BROWSER.click("#slider")  # its middle
        self.assertIn(at(), ("7#step=7", "8#step=8"))
        BROWSER.run("location.hash = '#step=9'")
        self.assertEqual(at(), "9#step=9")
        BROWSER.run("location.hash = '#step=7'")
        self.assertEqual(at(), "7#step=7")
        BROWSER.click("[data-command='2']")
        self.assertEqual(at(), "3#step=3")
        BROWSER.run("location.hash = '#step=99'")
        self.assertEqual(at()[:2], "15")

    def test_bounds_of_the_pointer_at_hand(self):
        self.opened("list")
        BROWSER.hover("[data-word='1'] .value")
        page = Reading(BROWSER)
        self.assertEqual((page.within(), page.bounds), ([4, 5], "first: \u2192 block 4, bounds [4, 6): block 4"))
        BROWSER.run("document.querySelector('[data-word=\"5\"] .value button').focus()")
        self.assertEqual(Reading(BROWSER).within(), [6, 7])

    def test_for_all_readers(self):
        """Headings in order, labels on what can be worked, a live line, rows with headers, and no picture that is read out."""
        self.opened("snapshot")
        headings = BROWSER.run("[...document.querySelectorAll('h1, h2, h3')].map((h) => h.tagName).join(' ')")
        self.assertEqual(headings, "H1 H2 H2 H3 H3 H2")
        self.assertEqual(BROWSER.run("document.getElementById('slider').labels[0].textContent"), "Step 5 of 5")
        buttons = BROWSER.run("[...document.querySelectorAll('.controls button')].map((button) => button.textContent)")
        self.assertEqual(buttons, ["First", "Back", "Next", "Last"])
        self.assertEqual(BROWSER.run("document.querySelector('[aria-live=polite]').id"), "says")
        self.assertEqual(BROWSER.run("document.getElementById('arrows').getAttribute('aria-hidden')"), "true")
        self.assertTrue(BROWSER.run("[...document.querySelectorAll('tbody tr')].every((row) => row.querySelector('th[scope=row]'))"))
        tree = BROWSER.call("Accessibility.getFullAXTree")["nodes"]
        roles = {(node.get("role") or {}).get("value") for node in tree}
        self.assertLessEqual({"heading", "slider", "button", "table", "row", "rowheader", "cell", "status", "list", "listitem"}, roles)


class Looks(unittest.TestCase):
    """Sizes, schemes, paper, and nothing from a network."""

    def test_narrow_dark_and_paper(self):
        for name, options in RUNS.items():
            path, _ = made_page(name, options)
            with self.subTest(name):
                BROWSER.view(360, 800)
                BROWSER.open(path)
                self.assertLessEqual(BROWSER.run("document.documentElement.scrollWidth"), 360)
                BROWSER.picture(PICTURES / f"{name}-narrow.png", whole=True)
                BROWSER.view(1280, 900, prefers_color_scheme="dark")
                self.assertLess(max(map(int, re.findall(r"\d+", BROWSER.run("getComputedStyle(document.body).backgroundColor")))), 64)
                BROWSER.picture(PICTURES / f"{name}-dark.png")
                BROWSER.view()
                BROWSER.open(path)
                BROWSER.pdf(PICTURES / f"{name}.pdf")
                self.assertEqual((PICTURES / f"{name}.pdf").read_bytes()[:5], b"%PDF-")
                self.assertFalse(BROWSER.run("document.documentElement.classList.contains('printing')"))

    def test_the_picture_in_readme(self):
        """It is taken anew here, to be looked at and, made smaller, put into docs/."""
        path, _ = made_page("snapshot", RUNS["snapshot"])
        BROWSER.view(1180, 842)
        BROWSER.open(path)
        BROWSER.picture(PICTURES / "report.png")
        self.assertLess((ROOT / "docs/report.png").stat().st_size, 150_000)

    def test_contrast(self):
        """Text stands out from what is behind it by 4.5 to 1, in both schemes."""
        path, _ = made_page("snapshot", RUNS["snapshot"])
        for scheme in ("light", "dark"):
            BROWSER.view(prefers_color_scheme=scheme)
            BROWSER.open(path, "#step=5")
            for pair in (
                "ink paper",
                "ink card",
                "soft paper",
                "soft card",
                "soft shade",
                "accent card",
                "ink wanted-back",
                "ink written-back",
            ):
                self.assertGreaterEqual(contrast(*map(color, pair.split())), 4.5, (scheme, pair))
            for name in ("read", "written", "obtained", "wanted"):
                self.assertGreaterEqual(contrast(color(name), color(f"{name}-back")), 4.5, (scheme, name))

    def test_nothing_from_elsewhere(self):
        for name, options in (*RUNS.items(), ("nocast", REFUSED)):
            path, _ = made_page(name, options)
            BROWSER.open(path)
            self.assertEqual(BROWSER.requests, [path.resolve().as_uri()])
            self.assertIsNone(re.search(r"https?:|url\(|@import|\bsrc=|\bhref=", path.read_text()))

    def test_large_routines(self):
        for name, make in LARGE.items():
            with self.subTest(name):
                path, status = made_page(name, make(PICTURES))
                self.assertEqual(status, 0)
                self.assertLess(path.stat().st_size, 2_000_000)
                BROWSER.view()
                BROWSER.open(path)
                loaded = BROWSER.run("performance.getEntriesByType('navigation')[0].loadEventEnd")
                rows = BROWSER.run("document.querySelectorAll('#picture tbody tr').length")
                print(f"{name}: {path.stat().st_size} bytes, loaded in {loaded:.0f} ms, {rows} rows")
                self.assertLess(loaded, 1000)
                self.assertLess(rows, 1000)
                BROWSER.picture(PICTURES / f"{name}.png")
                BROWSER.view(360, 800)
                self.assertLessEqual(BROWSER.run("document.documentElement.scrollWidth"), 360)

    def test_folded_words_can_be_shown(self):
        path, _ = made_page("commands", LARGE["commands"](PICTURES))
        BROWSER.view()
        BROWSER.open(path)
        self.assertEqual(Reading(BROWSER).groups[1][1][1][:2], ["6..4094", "[1] .. [4089]"])
        BROWSER.click("button.open")
        words = by_word(Reading(BROWSER).memory())
        self.assertEqual((words[6], words[4094]), (("7920", "[1]", ""), (str(1 + 4089 * 7919), "[4089]", "")))


class Refusals(unittest.TestCase):
    def test_refused(self):
        path, status = made_page("nocast", REFUSED)
        self.assertEqual(status, 3)
        BROWSER.view()
        BROWSER.open(path)
        self.assertTrue(
            BROWSER.run("document.querySelector('h1').textContent").startswith("Refused, and nothing was run: types do not fit ")
        )
        self.assertEqual(BROWSER.run("document.getElementById('explanation').textContent").strip(), mavis("run", *REFUSED)[1].strip())
        self.assertEqual(BROWSER.run("document.querySelectorAll('#steps, #memory').length"), 2)
        self.assertTrue(BROWSER.run("[...document.querySelectorAll('#steps, #memory')].every((part) => part.hidden)"))
        lines = BROWSER.run("[...document.querySelectorAll('#lines li')].map((line) => line.textContent).join('\\n')")
        self.assertEqual(lines.strip(), (ROOT / REFUSED[0]).read_text().strip())
        BROWSER.key("ArrowLeft")
        BROWSER.picture(PICTURES / "nocast.png")

    def test_a_call_that_is_refused(self):
        status, output, _ = mavis("report", "routines/list.c", "--memory", "3")
        self.assertEqual(status, 3)
        self.assertIn("Refused, and nothing was run: ", output)

    def test_faulty_c(self):
        path = PICTURES / "faulty.c"
        path.write_text("void routine(void) { n = 1; }\n")
        run, report = mavis("run", str(path)), mavis("report", str(path))
        self.assertEqual(report, run)
        self.assertEqual((report[0], report[1]), (3, ""))


class Tables(unittest.TestCase):
    """Pages of tables that no C goes with."""

    def test_the_same_run(self):
        for name in ("snapshot", "row", "noroom", "top", "listend"):
            with self.subTest(name):
                options = (f"routines/{name}.txt",)
                path, status = made_page(f"{name}-table", options)
                run, output, _ = mavis("run", *options)
                self.assertEqual(status, run)
                BROWSER.view()
                BROWSER.open(path)
                page = Reading(BROWSER)
                groups = [group for group in page.memory() if group[0] != "not in use"]
                self.assertEqual(by_word(groups).keys(), by_word(memory_of(output)).keys())
                self.assertEqual(BROWSER.run("document.querySelector('#lines > .now').value"), int(page.slider) - 1)
                BROWSER.picture(PICTURES / f"{name}-table.png")


def color(name):
    """A colour of the page as red, green and blue."""
    told = BROWSER.run(
        f"""(() => {{ const probe = document.body.appendChild(document.createElement('i')); probe.style.color = 'var(--{name})';
        const found = getComputedStyle(probe).color; probe.remove(); return found; }})()"""
    )
    return [int(part) for part in re.findall(r"\d+", told)[:3]]


def contrast(one, other):
    """How far two colours stand apart, by WCAG's measure."""

    def light(parts):
        linear = [part / 255 / 12.92 if part <= 10 else ((part / 255 + 0.055) / 1.055) ** 2.4 for part in parts]
        return sum(part * weight for part, weight in zip(linear, (0.2126, 0.7152, 0.0722)))

    low, high = sorted((light(one), light(other)))
    return (high + 0.05) / (low + 0.05)


if __name__ == "__main__":
    unittest.main()
