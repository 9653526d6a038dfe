"""A lesson: the page in one file, with the answers of nbhd on some programs and rings in place of the server."""

import base64
import gzip
import html
import json
import re
from pathlib import Path

from .errors import Refusal
from .files import title_of
from .orders import words_and_text

# What the judge is asked of each program, beside the patterns that it lists.
QUESTIONS = [{"near": "1", "far": "0"}, {"near": "1", "far": "1"}]
QUESTIONS += [{"problem": name} for name in ("mis", "matching", "weak2")]
# More than a program may have.
TEXT_BYTES = 100_000
# A lesson loads nothing from elsewhere.
POLICY = "default-src 'none'; script-src 'unsafe-inline' data:; style-src 'unsafe-inline'; img-src data:; "
POLICY += "base-uri 'none'; form-action 'none'"
SAYS = """\
<p class="lesson-note">A lesson in one file: {what}. Its answers are recorded; others need <code>nbhd</code>, as on the
page of <code>./nbhd-page</code>.</p>
"""


class NoLesson(Exception):
    """Why there is no lesson."""


class Recorder:
    """The answers of nbhd by the body of the page's request for each."""

    def __init__(self, runs, ids):
        self.runs, self.ids, self.answers = runs, ids, {}

    def ask(self, command, text, **options):
        """The report of a command as an object, without one an empty object; the answer is recorded."""
        asked = {"command": command, "options": {"ids": self.ids, **options, "format": "json"}, "text": text}
        # As JSON.stringify writes it.
        body = json.dumps(asked, ensure_ascii=False, separators=(",", ":"))
        if body not in self.answers:
            self.answers[body] = self.answer(body)
        answer = self.answers[body]
        if answer.get("status") == 2:
            raise NoLesson(" - ".join(re.findall(r"^(?:nbhd|error): (.*)$", answer["note"], re.MULTILINE)))
        try:
            return json.loads(answer.get("out", ""))
        except ValueError:
            return {}

    def answer(self, body):
        try:
            status, out, note = self.runs.run(*words_and_text(body.encode()), lambda: False)
        except Refusal as refusal:
            return {"refused": refusal.reason}
        return {"status": status, "out": out.decode(), "note": note.decode("utf-8", "backslashreplace")}

    def program(self, text):
        """Whether a program is accepted, and the rings of the nos to it."""
        if self.ask("check", text).get("kind") != "accepted":
            return False, []
        self.ask("table", text)
        patterns = re.search(r"^# Forbid: (.*)", text, re.MULTILINE)
        questions = [*QUESTIONS, {"forbid": patterns[1].split()}] if patterns else QUESTIONS
        reports = [self.ask("judge", text, **question) for question in questions]
        return True, [",".join(map(str, report["ring"])) for report in reports if report.get("kind") == "no"]

    def run(self, text, ring):
        """Records the run of a program on a ring, and how each of its nodes computes; returns the report on the run."""
        report = self.ask("trace", text, ring=ring)
        for place in range(len(report.get("ring", []))):
            self.ask("explain", text, ring=ring, place=str(place))
        return report


def lesson(root, runs, paths, ids, rings):
    """The lesson of the programs in these files for so many identifiers, on these rings and those of a no."""
    programs = read_programs(paths)
    recorder = Recorder(runs, ids)
    found = {name: recorder.program(text) for name, text in programs.items()}
    accepted = [programs[name] for name, (is_accepted, _) in found.items() if is_accepted]
    for ring in rings:
        check_ring(recorder, accepted or list(programs.values()), ring)
    all_rings = list(dict.fromkeys([*rings, *(ring for _, others in found.values() for ring in others)]))
    for ring in all_rings:
        for text in accepted:
            recorder.run(text, ring)
    examples = [{"name": name, "title": title_of(name, text), "text": text} for name, text in programs.items()]
    recorded = {"start": {"ids": ids, "ring": rings[0]}, "rings": all_rings, "answers": recorder.answers}
    recorded["examples"] = [{**example, "ids": ids} for example in examples]
    what = f"{', '.join(programs)} with {ids} identifiers, on {len(all_rings)} rings"
    return in_one_file(root / "page", SAYS.format(what=html.escape(what)), recorded)


def check_ring(recorder, texts, ring):
    """Refuses a ring that is one for no program. One that is too short for some of them is not refused."""
    try:
        reports = [recorder.run(text, ring) for text in texts]
    except NoLesson as why:
        raise NoLesson(f"the ring {ring}: {why}") from None
    if all(report.get("of") == "ring" for report in reports):
        raise NoLesson(f"the ring {ring}: {reports[0]['note'].splitlines()[0].removeprefix('nbhd: ')}")


def read_programs(paths):
    """The texts of the files by their names."""
    programs = {}
    for path in map(Path, paths):
        if path.name in programs:
            raise NoLesson(f"two files have the name {path.name}")
        try:
            with open(path, "rb") as file:
                programs[path.name] = file.read(TEXT_BYTES).decode("utf-8", "replace").replace("\r\n", "\n")
        except OSError as error:
            raise NoLesson(f"{path}: {error.strerror}") from None
    return programs


def in_one_file(folder, says, recorded):
    """The page with its style, its scripts and its picture in it, and with what is recorded."""
    modules = {file.name: file.read_text(encoding="utf-8") for file in sorted(folder.glob("*.js"))}
    theme = modules.pop("theme.js")
    # A module in an address of itself has no folder: the names lead by the map alone.
    bare = {name: re.sub(r'from "\./([\w-]+\.js)"', r'from "\1"', text) for name, text in modules.items()}
    imports = json.dumps({"imports": {name: data_of("text/javascript", text) for name, text in bare.items()}})
    answers = base64.b64encode(gzip.compress(json.dumps(recorded).encode(), mtime=0)).decode()
    names = ("style.css", "icon.svg", "index.html")
    style, icon, page = ((folder / name).read_text(encoding="utf-8") for name in names)
    page = re.sub(r'<link rel="modulepreload" [^>]*>\n', "", page)
    charset, module = '<meta charset="utf-8">', '<script type="module" '
    for old, new in (
        (charset, f'{charset}\n<meta http-equiv="Content-Security-Policy" content="{POLICY}">'),
        ('href="icon.svg"', f'href="{data_of("image/svg+xml", icon)}"'),
        ('<link rel="stylesheet" href="style.css">', f"<style>\n{style}</style>"),
        ('<script src="theme.js"></script>', f"<script>\n{theme}</script>"),
        (f'{module}src="main.js">', f'<script type="importmap">{imports}</script>\n{module[:-1]}>import "main.js";'),
        ("</header>\n", f'</header>\n{says}<script type="text/plain" id="recorded">{answers}</script>\n'),
    ):
        before, found, after = page.partition(old)
        assert found, old
        page = before + new + after
    return page


def data_of(kind, text):
    """A text as an address of itself."""
    return f"data:{kind};base64,{base64.b64encode(text.encode()).decode()}"
