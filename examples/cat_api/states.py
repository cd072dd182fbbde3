"""The state of a session that a player keeps and sends back: Base64 of JSON with its HMAC-SHA-256, by which a forged one is refused."""
import base64
import binascii
import hmac
import json

VERSION, DIGEST = 1, 64  # characters of the digest in hexadecimal


class WrongState(Exception):
    """A state that is not of this session; the text has why."""


def digest(key, text):
    return hmac.new(key, text, "sha256").hexdigest().encode()


def written_state(key, sitting, step):
    text = json.dumps({"v": VERSION, "session": sitting.id, "booking": sitting.booking, "step": step}, separators=(",", ":")).encode()
    return base64.b64encode(digest(key, text) + text).decode()


def read_state(key, sitting, state):
    """The step of a state that this adapter gave for this session."""
    try:
        found = base64.b64decode(state.encode(), validate=True) if isinstance(state, str) else b""
    except (binascii.Error, UnicodeEncodeError):
        found = b""
    given, text = found[:DIGEST], found[DIGEST:]
    if not hmac.compare_digest(given, digest(key, text)):
        raise WrongState("the state of the session is none that this adapter gave")
    entries = json.loads(text)
    if (entries["v"], entries["session"], entries["booking"]) != (VERSION, sitting.id, sitting.booking):
        raise WrongState("the state is of another session")
    return entries["step"]
