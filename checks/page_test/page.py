"""The page in the browser, as the views' tests use it."""

import json
from urllib.parse import quote

from steps import STEPS


class Page:
    def __init__(self, browser, server):
        self.browser, self.url = browser, f"http://{server.own}/"

    def value(self, expression):
        """The value of a JavaScript expression in the page."""
        return self.browser.value(expression)

    def open(self, **state):
        """Opens the page in a state, a run at its end unless the state has a step."""
        if state.get("view") == "run":
            state.setdefault("step", "end")
        fragment = "&".join(f"{name}={quote(value, safe=',')}" for name, value in state.items())
        self.browser.open(f"{self.url}#{fragment}")

    def texts(self, selector):
        """The texts of the visible elements that match."""
        return self.value(f"[...document.querySelectorAll(`{selector}`)].filter(e => e.checkVisibility()).map(e => e.textContent)")

    def text(self, selector):
        return " ".join(self.texts(selector))

    def count(self, selector):
        return self.value(f"document.querySelectorAll(`{selector}`).length")

    def focus(self, selector):
        self.value(f"document.querySelector(`{selector}`).focus()")

    def click(self, selector):
        self.value(f"document.querySelector(`{selector}`).click()")

    def middles(self, selector):
        """The points in the middle of the elements that match."""
        rectangles = f"[...document.querySelectorAll(`{selector}`)].map(e => e.getBoundingClientRect())"
        return self.value(f"{rectangles}.map(r => [r.x + r.width / 2, r.y + r.height / 2])")

    def middle(self, selector):
        return self.middles(selector)[0]

    def wait(self, name, expression):
        """A step that passes when the expression becomes true."""
        STEPS.check(name, self.browser.until(expression), f"- {expression}: {self.text('.check')} | {self.text('.refused')}")

    def wait_ring(self, name, ring):
        """Waits until the run view has this ring and its channels."""
        badges = f"document.querySelectorAll('#stage .badge').length === {len(ring.split(','))}"
        self.wait(name, f"document.querySelector('#ring').value === '{ring}' && {badges}")

    def fill(self, selector, value):
        """Gives a field a value, as typing does."""
        self.value(
            f"(e => {{ e.focus(); e.value = {json.dumps(value)}; e.dispatchEvent(new Event('input', {{ bubbles: true }})); }})"
            f"(document.querySelector(`{selector}`))"
        )

    def choose(self, selector, value):
        """Chooses the option of a field with this value."""
        change = "e.dispatchEvent(new Event('change', { bubbles: true }))"
        self.value(f"(e => {{ e.focus(); e.value = {json.dumps(value)}; {change}; }})(document.querySelector(`{selector}`))")

    def listen(self):
        """Notes from now on what the page asks of nbhd."""
        note = "window.fetch = (...words) => { window.asked.push(words[1]?.body); return ask(...words); }"
        self.value(f"window.asked ??= (ask => ({note}, []))(fetch), window.asked.length = 0")

    def asked(self, command, option):
        """The values of an option in what the page asked a command of nbhd, in order."""
        bodies = [json.loads(body) for body in self.value("window.asked") if body]
        return [body["options"][option] for body in bodies if body["command"] == command and option in body["options"]]

    def call(self, module, expression):
        """The value of an expression over a module `m` of the page."""
        return self.value(f"import('/{module}').then((m) => JSON.stringify({expression})).then(JSON.parse)")
