"""Signed tokens, right ones and others, and who comes in with each (RFC 7515, RFC 7519)."""
import base64
import hashlib
import hmac
import json
import subprocess
import time

import jwt

OLD, NEW = b"an old key of thirty-two bytes ..", b"a new key of thirty-two bytes ..."
ALLOWED, REFUSED, EXPIRED = None, "Not allowed", "Token expired"
# RFC 7515, appendix A.1: the key, and a token that ended in 2011.
RFC_KEY = base64.urlsafe_b64decode("AyM1SysPpbyDfgZld3umj1qzKObwVMkoqQ-EstJQLr_T-1qS0gZH75aKtMN3Yj0iPS4hcgUuTwjAzZr1Z9CAow==")
RFC_TOKEN = ("eyJ0eXAiOiJKV1QiLA0KICJhbGciOiJIUzI1NiJ9.eyJpc3MiOiJqb2UiLA0KICJleHAiOjEzMDA4MTkzODAsDQogImh0dHA6Ly9leGFtcGxlLmNvbS9pc19yb290"
             "Ijp0cnVlfQ.dBjftJeZ4CVP-mB92K27uhbUJU1p1r_wW1gFWFOEjXk")
NODE = """const { createHmac } = require("crypto"); const [key, claims] = process.argv.slice(1);
const part = (value) => Buffer.from(value).toString("base64url");
const signed = part(JSON.stringify({ alg: "HS256", typ: "JWT" })) + "." + part(claims);
console.log(signed + "." + createHmac("sha256", key).update(signed).digest("base64url"));"""


def part(data):
    data = data if isinstance(data, bytes) else data.encode()
    return base64.urlsafe_b64encode(data).rstrip(b"=").decode()


def sign(claims="{}", header='{"alg":"HS256","typ":"JWT"}', key=NEW, digest=hashlib.sha256):
    """A token of these two texts, whatever they say."""
    signed = f"{part(header)}.{part(claims)}"
    return f"{signed}.{part(hmac.new(key, signed.encode(), digest).digest())}"


def made(key=NEW, headers=None, **claims):
    """A token as Debian's python3-jwt makes it."""
    return jwt.encode({"sub": "ann", **claims}, key, algorithm="HS256", headers=headers)


def by_node(**claims):
    return subprocess.run(["node", "-e", NODE, NEW.decode(), json.dumps(claims)], check=True, capture_output=True, text=True).stdout.strip()


def changed(token, at):
    """The token with another byte there."""
    return token[:at] + ("A" if token[at] != "A" else "B") + token[at + 1:] if at >= 0 else changed(token, len(token) + at)


def in_other_alphabet():
    """A token in the alphabet of base64 that isn't for URLs, with a digit that differs."""
    token = next(it for n in range(10_000) if "-" in (it := sign(f'{{"n":"{n}???>>>"}}')) or "_" in it)
    return token.replace("-", "+").replace("_", "/")


def rows():
    """Each token, and what its client is told where it doesn't come in; of a server with both keys."""
    now = int(time.time())
    good = made(exp=now + 600)
    return [
        ("of python3-jwt", good, ALLOWED),
        ("of node's crypto", by_node(sub="ann", exp=now + 600), ALLOWED),
        ("of the old key", made(key=OLD), ALLOWED),
        ("that names its key", made(headers={"kid": "new"}), ALLOWED),
        ("without an end", made(), ALLOWED),
        ("whose end has a fraction", sign(f'{{"exp":{now + 600}.25}}'), ALLOWED),
        ("that ended within the leeway", made(exp=now - 10), ALLOWED),
        ("that begins within the leeway", made(nbf=now + 20), ALLOWED),
        ("for somebody, where nobody is asked for", made(aud="others"), ALLOWED),
        ("that ended", made(exp=now - 40), EXPIRED),
        ("that ended at the beginning of time", made(exp=0), EXPIRED),
        ("of RFC 7515, which ended", RFC_TOKEN, EXPIRED),
        ("of RFC 7515, whose signature differs", changed(RFC_TOKEN, -3), REFUSED),
        ("that begins later", made(nbf=now + 100), REFUSED),
        ("that ended, of another key", made(exp=now - 40, key=b"another key"), REFUSED),
        ("none", "", REFUSED),
        ("no token", "a.b", REFUSED),
        ("unsigned", sign(header='{"alg":"none"}', key=b""), REFUSED),
        ("unsigned, without a signature", ".".join(sign(header='{"alg":"none"}').split(".")[:2]) + ".", REFUSED),
        ("unsigned, in other letters", sign(header='{"alg":"nOnE"}'), REFUSED),
        ("by HS512", sign(header='{"alg":"HS512"}', digest=hashlib.sha512), REFUSED),
        ("by RS256 with the key as secret", sign(header='{"alg":"RS256"}'), REFUSED),
        ("without an algorithm", sign(header='{"typ":"JWT"}'), REFUSED),
        ("with an algorithm that is no text", sign(header='{"alg":["HS256"]}'), REFUSED),
        ("with two algorithms", sign(header='{"alg":"none","alg":"HS256"}'), REFUSED),
        ("with a critical member", sign(header='{"alg":"HS256","crit":["exp"]}'), REFUSED),
        ("of another key", made(key=b"another key of thirty-two bytes .."), REFUSED),
        ("of the empty key", made(key=b""), REFUSED),
        ("that names no key of ours", made(headers={"kid": "old2"}), REFUSED),
        ("that names a path", made(headers={"kid": "../../dev/null"}, key=b""), REFUSED),
        ("that names the other key", made(headers={"kid": "old"}), REFUSED),
        ("that names its key by a number", sign(header='{"alg":"HS256","kid":1}'), REFUSED),
        ("whose signature is cut", good[:-2], REFUSED),
        ("without a signature", good.rpartition(".")[0] + ".", REFUSED),
        ("whose signature differs at its begin", changed(good, good.rindex(".") + 1), REFUSED),
        ("whose signature differs", changed(good, -3), REFUSED),
        ("whose claims differ", changed(good, good.index(".") + 4), REFUSED),
        ("with a byte behind it", good + "A", REFUSED),
        ("with a line's end behind it", good + "\n", REFUSED),
        ("with a blank before it", " " + good, REFUSED),
        ("with a fourth part", good + ".", REFUSED),
        ("with padding", good + "=", REFUSED),
        ("in another alphabet", in_other_alphabet(), REFUSED),
        ("whose header is no JSON", sign(header="HS256"), REFUSED),
        ("whose claims are no object", sign("[]"), REFUSED),
        ("whose claims are no UTF-8", sign(b'{"sub":"\xff"}'), REFUSED),
        ("whose claims hold U+001E", sign('{"sub":"\x1e"}'), REFUSED),
        ("that names a claim twice", sign('{"sub":"ann","sub":"bob"}'), REFUSED),
        ("whose end is a text", sign(f'{{"exp":"{now + 600}"}}'), REFUSED),
        ("whose end is 1e300", sign('{"exp":1e300}'), REFUSED),
        ("whose end is below zero", sign('{"exp":-5}'), REFUSED),
        ("whose begin is true", sign('{"nbf":true}'), REFUSED),
        ("of 9,000 bytes", made(more="x" * 9_000), REFUSED),
    ]


def for_chat():
    """The same of a server with `--jwt-audience chat`."""
    return [
        ("for chat", made(aud="chat"), ALLOWED),
        ("for chat and others", made(aud=["others", "chat"]), ALLOWED),
        ("for nobody", made(), REFUSED),
        ("for others", made(aud="others"), REFUSED),
        ("for a number", sign('{"aud":7}'), REFUSED),
    ]
