"""A headless Chromium of Debian, driven by its DevTools protocol over python3-websockets: pages of people who don't share cookies, what
stands on them, presses of buttons, and pictures. Each call has a time limit, and a script that fails in a page says so with the page's own
words."""
import asyncio, base64, json, os, re, shutil, subprocess, tempfile, time
import websockets


class Lost(Exception):
    """What a page should have shown and didn't."""


class Browser:
    def __init__(self, most=60, any_certificate=False, names=None):
        self.folder = tempfile.mkdtemp(prefix="browser-")
        self.last, self.loop = 0, asyncio.new_event_loop()
        # each address that a page asked, without the password that may stand in it
        self.asked = set()
        words = ["chromium", "--headless=new", "--remote-debugging-port=0", f"--user-data-dir={self.folder}", "--no-first-run",
                 "--disable-gpu", "--disable-dev-shm-usage", "--window-size=1100,800", "--no-proxy-server",
                 "--disable-extensions", "--mute-audio"]
        words += ["--no-sandbox"] if os.geteuid() == 0 else []
        words += ["--ignore-certificate-errors"] if any_certificate else []
        # names that no service of names knows are those of this machine
        words += [f"--host-resolver-rules=MAP {names} 127.0.0.1"] if names else []
        quiet = {"stdin": subprocess.DEVNULL, "stdout": subprocess.DEVNULL, "stderr": subprocess.DEVNULL}
        self.process = subprocess.Popen([*words, "about:blank"], **quiet, env={**os.environ, "HOME": self.folder})
        try:
            self.line = self.wait(self.connect(most), most + 10)
        except BaseException:
            self.close()
            raise

    def wait(self, job, most):
        return self.loop.run_until_complete(asyncio.wait_for(job, most))

    async def connect(self, most):
        until = time.monotonic() + most
        while time.monotonic() < until:
            try:
                with open(f"{self.folder}/DevToolsActivePort") as file:
                    port, path = file.read().split()
                return await websockets.connect(f"ws://127.0.0.1:{port}{path}", max_size=None, ping_interval=None)
            except (OSError, ValueError):
                if self.process.poll() is not None:
                    raise Lost(f"chromium ended with status {self.process.returncode}")
                await asyncio.sleep(0.2)
        raise Lost(f"chromium isn't there after {most} seconds")

    async def exchange(self, message):
        await self.line.send(json.dumps(message))
        while True:
            reply = json.loads(await self.line.recv())
            if reply.get("method") in ("Network.requestWillBeSent", "Network.webSocketCreated"):
                told = reply["params"]
                self.asked.add(re.sub("//[^/@]*@", "//", told.get("url") or told["request"]["url"]))
            if reply.get("id") == message["id"]:
                return reply

    def call(self, method, session=None, most=30, **given):
        self.last += 1
        message = {"id": self.last, "method": method, "params": given, **({"sessionId": session} if session else {})}
        try:
            reply = self.wait(self.exchange(message), most)
        except asyncio.TimeoutError:
            raise Lost(f"chromium didn't answer {method} within {most} seconds") from None
        if "error" in reply:
            raise Lost(f"{method}: {reply['error']}")
        return reply["result"]

    def close(self):
        try:
            self.wait(self.line.close(), 5)
        except (AttributeError, OSError, asyncio.TimeoutError):
            # it was never connected, or doesn't answer any more
            pass
        self.process.terminate()
        try:
            self.process.wait(10)
        except subprocess.TimeoutExpired:
            self.process.kill()
            self.process.wait()
        self.loop.close()
        # another process of the browser may write there once more
        until = time.monotonic() + 5
        while os.path.isdir(self.folder) and time.monotonic() < until:
            shutil.rmtree(self.folder, ignore_errors=True)
            time.sleep(0.2)


class Page:
    """A page of somebody who shares no cookie with the others."""

    def __init__(self, browser):
        self.browser = browser
        context = browser.call("Target.createBrowserContext")["browserContextId"]
        target = browser.call("Target.createTarget", url="about:blank", browserContextId=context)["targetId"]
        self.session = browser.call("Target.attachToTarget", targetId=target, flatten=True)["sessionId"]
        self.call("Page.enable")
        self.call("Network.enable")

    def call(self, method, most=30, **given):
        return self.browser.call(method, self.session, most, **given)

    def run(self, script, most=30):
        """What a script gives, also one that promises it."""
        given = self.call("Runtime.evaluate", most, expression=script, awaitPromise=True, returnByValue=True)
        if "exceptionDetails" in given:
            told = given["exceptionDetails"]
            raise Lost(f"{script}: {told.get('exception', {}).get('description', told['text'])}")
        return given["result"].get("value")

    def until(self, script, most=30, what=None):
        """Waits until a script gives something true."""
        end, fault = time.monotonic() + most, ""
        while time.monotonic() < end:
            try:
                if given := self.run(script, max(1, end - time.monotonic())):
                    return given
            except Lost as lost:
                # a page that is just left has no script any more
                fault = str(lost)
            time.sleep(0.2)
        raise Lost(f"{what or script} didn't come within {most} seconds {fault}; the page {self.at()} shows: {self.text()[:500]}")

    def go(self, url, most=40):
        told = self.call("Page.navigate", most, url=url)
        if told.get("errorText"):
            raise Lost(f"{url}: {told['errorText']}")
        self.until("document.readyState == 'complete'", most)

    def sign_in(self, home, name, password):
        """By the form of the page that a browser without a sign-in is sent to."""
        self.go(home)
        self.until("!!document.querySelector('input[name=password]')", what="the form to sign in by")
        for field, text in (("username", name), ("password", password)):
            self.run(f"document.querySelector('input[name={field}]').value = {json.dumps(text)}")
        self.press("Sign in")

    def press(self, label, within="document"):
        script = f"[...({within}).querySelectorAll('button')].find(it => it.textContent == {json.dumps(label)})"
        self.until(f"!!{script}", what=f"the button {label!r}")
        self.run(f"{script}.click()")

    def at(self):
        try:
            return self.run("location.href", 5)
        except Lost:
            return "(none)"

    def text(self):
        try:
            return self.run("document.body ? document.body.innerText : ''", 5) or ""
        except Lost:
            return "(none)"

    def picture(self, file):
        with open(file, "wb") as out:
            out.write(base64.b64decode(self.call("Page.captureScreenshot", format="png")["data"]))
