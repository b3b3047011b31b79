"""A kernel of a notebook, reached as a browser reaches it: by the proxy and the guard."""
import asyncio, json, re, time, urllib.request
import websockets
from parts import PROXY, url


class Kernel:
    def __init__(self, user, token):
        self.base, self.own = url(PROXY, f"/user/{user}"), {"Authorization": f"token {token}"}
        with urllib.request.urlopen(urllib.request.Request(f"{self.base}/tree", headers=self.own), timeout=60) as reply:
            cookie = re.search("_xsrf=([^;]+)", reply.headers["Set-Cookie"])[1]
        self.own |= {"Cookie": f"_xsrf={cookie}", "X-XSRFToken": cookie}
        made = urllib.request.Request(f"{self.base}/api/kernels", b'{"name": "python3"}', {**self.own, "Content-Type": "application/json"})
        with urllib.request.urlopen(made, timeout=180) as reply:
            self.number = json.load(reply)["id"]

    async def hear(self, source, most, say):
        """Hands on what a cell says, until it is done or its kernel is gone."""
        place = f"{self.base.replace('http', 'ws')}/api/kernels/{self.number}/channels"
        header = {"msg_id": "one", "username": "anybody", "session": "one", "msg_type": "execute_request", "version": "5.3"}
        content = {"code": source, "silent": False, "store_history": False, "user_expressions": {}, "allow_stdin": False}
        request = {"header": header, "parent_header": {}, "metadata": {}, "content": content, "channel": "shell"}
        until = time.monotonic() + most
        async with websockets.connect(place, extra_headers=self.own, max_size=None, open_timeout=180) as line:
            await line.send(json.dumps(request))
            while time.monotonic() < until:
                try:
                    said = json.loads(await asyncio.wait_for(line.recv(), 5))
                except asyncio.TimeoutError:
                    continue
                except websockets.ConnectionClosed:
                    return
                if said["msg_type"] == "stream":
                    say(said["content"]["text"])
                state = said["content"].get("execution_state")
                if state == "restarting" or state == "idle" and said["parent_header"].get("msg_id") == "one":
                    return

    def cell(self, source, most, say=lambda text: None):
        """What a cell says. It is handed to `say` too, as it comes."""
        heard = []
        asyncio.run(self.hear(source, most, lambda text: (heard.append(text), say(text))))
        return "".join(heard)

    def program(self, words, most, say=lambda text: print(text, end="", flush=True)):
        """What a program says that a cell starts."""
        source = f"import subprocess\nran = subprocess.Popen({words!r}, stdout=-1, stderr=-2, text=True)\n" \
                 "for line in ran.stdout: print(line, end='', flush=True)"
        return self.cell(source, most, say)
