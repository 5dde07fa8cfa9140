"""What a reader sees of a page, read out of the browser."""

READ = """(() => {
  const shown = (element) => element.getClientRects().length > 0;
  const text = (element) => element ? element.textContent.trim() : null;
  const groups = [...document.querySelectorAll("#picture .group")].filter(shown).map((group) => [
    text(group.querySelector("h3")),
    [...group.querySelectorAll("tbody tr")].map((row) => {
      const note = row.querySelector(".note").cloneNode(true);
      const tags = [...note.querySelectorAll(".tag")].map((tag) => tag.remove() || text(tag));
      const cells = ["th", ".name", ".value"].map((name) => text(row.querySelector(name)));
      const box = row.getBoundingClientRect();
      return [...cells, text(note), tags, row.classList.contains("fold"), row.classList.contains("within"), box.top, box.bottom];
    }),
  ]);
  const arrows = [...document.querySelectorAll("#arrows path")].map((path) => {
    const box = path.getBoundingClientRect();
    return [Number(path.dataset.from), Number(path.dataset.to), path.classList[0], box.top, box.bottom, box.left, box.right];
  });
  const facts = document.getElementById("facts");
  const pairs = shown(facts) ? [...facts.querySelectorAll("dt")].map((name) => [text(name), text(name.nextElementSibling)]) : [];
  const now = document.querySelector("#lines > [aria-current=step]");
  return {
    says: text(document.getElementById("says")), at: text(document.getElementById("at")), slider: document.getElementById("slider").value,
    valueText: document.getElementById("slider").getAttribute("aria-valuetext"),
    line: now ? [...now.parentElement.children].indexOf(now) + 1 : null,
    marked: [...document.querySelectorAll("#lines .at")].map((part) => part.textContent).join(""),
    failed: [...document.querySelectorAll("#lines .ended .failed.at")].map(text).join(""),
    groups, arrows, facts: pairs, bounds: text(document.getElementById("bounds")), free: text(document.getElementById("free")),
  };
})()"""


class Reading:
    """A page at a step."""

    def __init__(self, browser):
        self.told = browser.run(READ)

    def __getattr__(self, name):
        return self.told[name]

    def memory(self):
        """Headings with rows, as `mavis run` prints them; a tag beside a heading left out."""
        found = []
        for heading, rows in self.told["groups"]:
            kept = []
            for address, name, value, note, _, fold, *_ in rows:
                kept.append((*ends(address), name, value, "" if fold else note.replace("\u2192 ", "-> ")))
            found.append((heading.replace(": obtained ", ": "), kept))
        return found

    def tagged(self, tag):
        """The words that have a tag."""
        return [int(row[0]) for _, rows in self.told["groups"] for row in rows if tag in row[4]]

    def within(self):
        """The words that are shaded as a pointer's bounds."""
        rows = [row for _, rows in self.told["groups"] for row in rows if row[6]]
        return [word for row in rows for word in range(ends(row[0])[0], ends(row[0])[1] + 1)]

    def tops(self):
        """Of each word in a row of its own, where the row begins and ends on the screen."""
        return {int(row[0]): row[7:9] for _, rows in self.told["groups"] for row in rows if not row[5]}


def ends(address):
    first, _, last = address.partition("..")
    return int(first), int(last or first)
