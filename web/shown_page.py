"""The page in headless Chromium, for scripts: a file is put in as a user chooses it, and what the page shows is read."""
import os

from browser import Browser

# Waits for the end of the judgement of this number.
WAIT = """(async () => {
  while (document.body.dataset.done !== '%d') await new Promise((go) => setTimeout(go, 5));
  putDigests();
  return { line: get('verdict').textContent, digests: get('digests').textContent };
})()"""


class ShownPage(Browser):
    """A page that web/build.sh wrote, in a browser. Use it in a `with`."""

    def __init__(self, page, width=1000, height=1500):
        super().__init__(width, height)
        self.call("Network.enable")
        self.call("Page.navigate", url="file://" + os.path.abspath(page))
        self.evaluate("new Promise((go) => document.readyState === 'complete' ? go() : addEventListener('load', go))")
        self.call("DOM.enable")

    def judge(self, name, target=0):
        """Has a file judged for the target of this number, as a user chooses it: the last line, and of each frame its count, size and CRC-32."""
        number = self.evaluate(f"get('target').value = {target}; current + 1")
        field = self.call("Runtime.evaluate", expression="get('file').value = ''; get('file')")["result"]["objectId"]
        self.call("DOM.setFileInputFiles", files=[os.path.abspath(name)], objectId=field)
        return self.told(number)

    def drop(self, name):
        """Has a file judged that is dropped on the page, and answers as judge does."""
        number = self.evaluate("current + 1")
        data = {"items": [], "files": [os.path.abspath(name)], "dragOperationsMask": 1}
        for kind in ("dragEnter", "dragOver", "drop"):
            self.call("Input.dispatchDragEvent", type=kind, x=100, y=100, data=data)
        return self.told(number)

    def told(self, number):
        """What the page says at the end of the judgement of this number."""
        told = self.evaluate(WAIT % number)
        return told["line"], [tuple(line.split()) for line in told["digests"].split("\n") if line]
