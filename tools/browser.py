"""A headless Chromium that a tool drives."""
import json
import re
import subprocess
import urllib.request


class Browser:
    """A headless Chromium, spoken to through its driver as W3C's WebDriver says."""

    def __init__(self, width, height):
        self.driver = subprocess.Popen(["chromedriver", "--port=0"], stdout=subprocess.PIPE, stderr=subprocess.DEVNULL, text=True)
        said = next(line for line in self.driver.stdout if "started successfully on port" in line)
        self.at = "http://127.0.0.1:" + re.search(r"port (\d+)", said)[1]
        options = {"args": ["--headless=new", "--no-sandbox", "--disable-gpu", f"--window-size={width},{height}"]}
        wanted = {"browserName": "chrome", "goog:chromeOptions": options, "goog:loggingPrefs": {"browser": "ALL"}}
        self.session = self.ask("/session", {"capabilities": {"alwaysMatch": wanted}})["sessionId"]

    def ask(self, path, body=None):
        data = None if body is None else json.dumps(body).encode()
        request = urllib.request.Request(self.at + path, data, {"Content-Type": "application/json"})
        with urllib.request.urlopen(request, timeout=120) as answer:
            return json.load(answer)["value"]

    def tell(self, path, body=None):
        return self.ask(f"/session/{self.session}{path}", {} if body is None else body)

    def run(self, script, *arguments):
        return self.tell("/execute/sync", {"script": script, "args": list(arguments)})

    def settle(self):
        """Until what was asked for is drawn."""
        self.tell("/execute/async", {"script": "const done = arguments[0]; requestAnimationFrame(() => requestAnimationFrame(done))", "args": []})

    def press(self, *keys):
        """Presses keys together; the last one is let go first."""
        steps = [{"type": "keyDown", "value": key} for key in keys] + [{"type": "keyUp", "value": key} for key in reversed(keys)]
        self.tell("/actions", {"actions": [{"type": "key", "id": "keys", "actions": steps}]})
        self.settle()

    def click(self, x, y):
        """A click at a place of the window, in pixels."""
        steps = [{"type": "pointerMove", "duration": 0, "x": round(x), "y": round(y)}, {"type": "pointerDown", "button": 0}, {"type": "pointerUp", "button": 0}]
        self.tell("/actions", {"actions": [{"type": "pointer", "id": "mouse", "parameters": {"pointerType": "mouse"}, "actions": steps}]})
        self.settle()

    def drag(self, places):
        """A press at the first of these places, a drag to each of the others, and the release."""
        moves = [{"type": "pointerMove", "duration": 0, "x": round(x), "y": round(y)} for x, y in places]
        steps = [moves[0], {"type": "pointerDown", "button": 0}, *moves[1:], {"type": "pointerUp", "button": 0}]
        self.tell("/actions", {"actions": [{"type": "pointer", "id": "mouse", "parameters": {"pointerType": "mouse"}, "actions": steps}]})
        self.settle()

    def chrome(self, command, **parameters):
        return self.tell("/goog/cdp/execute", {"cmd": command, "params": parameters})

    def console(self):
        return self.tell("/se/log", {"type": "browser"})

    def close(self):
        urllib.request.urlopen(urllib.request.Request(f"{self.at}/session/{self.session}", method="DELETE"), timeout=60).close()
        self.driver.terminate()
        self.driver.wait()
