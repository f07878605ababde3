"""What stands in the file of the page: nothing by which a page reaches a network, and a policy by which it could not."""
import base64
import gzip
import re

from common import check
from playing.page import hash_of

REACHES = re.compile(r"\b(fetch|XMLHttpRequest|WebSocket|WebTransport|EventSource|sendBeacon|RTCPeerConnection|importScripts|serviceWorker)\b|\b(import|eval|Function)\(")
ADDRESS = re.compile(r"(?:https?:|wss?:|ftp:)?//[a-z0-9.-]+\.[a-z]{2,}", re.I)
# The name of the format of pictures, which is written as an address and never asked for.
SVG = "http://www.w3.org/2000/svg"


def element(page, name):
    """The text of a script of the page."""
    return re.search(rf'<script id="{name}"[^>]*>(.*?)</script>', page, re.S)[1]


def program_of(path):
    """The WebAssembly that a page holds."""
    with open(path, encoding="utf-8") as file:
        return gzip.decompress(base64.b64decode(element(file.read(), "program")))


def try_what_is_written(path):
    with open(path, encoding="utf-8") as file:
        page = file.read()
    # What is packed is no text, and the examples are shown and not run.
    for name in ("program", "examples"):
        page = page.replace(element(page, name), "")
    check("nothing that reaches a network", not REACHES.search(page), REACHES.search(page))
    addresses = ADDRESS.findall(page.replace(SVG, ""))
    check("no address", not addresses, addresses)
    links = re.findall(r"<(?:link|img|iframe|object|embed|source)\b[^>]*?(?:src|href|data)=[^>]*>|@import|url\(", page)
    check("no file beside it", not links, links)
    policy = re.search(r'Content-Security-Policy" content="([^"]*)"', page)[1]
    check("by its policy it could not", policy.startswith("default-src 'none';") and not re.search(r"connect-src|\*|https?:|unsafe-inline|unsafe-eval'(?<!wasm-unsafe-eval')", policy), policy)
    for name, text in (("script", re.search(r'<script type="module">(.*?)</script>', page, re.S)[1]), ("style", re.search(r"<style>(.*?)</style>", page, re.S)[1])):
        check(f"the policy names the {name}", f"'sha256-{hash_of(text)}'" in policy, policy)
    check("it says by which path it was made, and that this is not proved", "That path is not proved" in page)
    check("it says whether its answers were compared", re.search(r"[\d,]+ of its answers were compared with those of the native program|its answers were not compared", page))
    check("it says what to do where it does not run", "browsers have since 2023" in page and "<noscript>" in page)
