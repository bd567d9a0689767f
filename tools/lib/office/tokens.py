"""The participants and their tokens. A token has the participant's name and 256 random bits. It is shown once; its SHA-256 is kept: nobody
tries 2 to the 256th tokens, so a slower hash would add nothing."""

import contextlib
import fcntl
import hashlib
import hmac
import json
import os
import re
import secrets
from collections.abc import Iterable, Iterator
from pathlib import Path

from ..base import text
from ..process import replacing
from . import folder

BYTES = 32
DIGEST = re.compile(r"[0-9a-f]{64}")
NO_DIGEST = "-" * 64  # as long as a digest, and none: no token has it


def draw_token(who: str) -> str:
    return f"{who}.{secrets.token_urlsafe(BYTES)}"


def digest_of(token: str) -> str:
    return hashlib.sha256(token.encode(errors="replace")).hexdigest()


def parse_digests(data: bytes) -> dict[str, str | None]:
    """The digest of each participant's token, or None if it has none."""
    value = json.loads(data, object_pairs_hook=folder.require_unrepeated_members)
    if not isinstance(value, dict):
        raise ValueError
    for who, digest in value.items():
        is_digest = digest is None or DIGEST.fullmatch(digest) is not None
        if not (is_digest and text.participant_or_none(who.encode(errors="replace"))):
            raise ValueError
    return value


class Register:
    """The participants of an office, by the file that has them, which is read again when it has changed."""

    def __init__(self, path: Path) -> None:
        self.path = path
        self.seen: tuple[int, int, int] | None = None
        self.digests: dict[str, str | None] = {}

    def read_and_keep_if_changed(self) -> None:
        found = self.path.stat()
        state = found.st_mtime_ns, found.st_ino, found.st_size
        if state != self.seen:
            with folder.stopping_if_damaged(self.path, "the digests of the participants' tokens"):
                self.digests, self.seen = parse_digests(self.path.read_bytes()), state

    def read_and_see_if_token_of(self, who: str, token: str) -> bool:
        """Whether a token is the participant's. A name without a digest has none. The comparison takes the same time for every token and
        name."""
        self.read_and_keep_if_changed()
        digest = self.digests.get(who)
        is_equal = hmac.compare_digest(digest or NO_DIGEST, digest_of(token))
        return is_equal and digest is not None

    def read_names(self) -> list[str]:
        self.read_and_keep_if_changed()
        return list(self.digests)

    def read_revoked(self) -> list[str]:
        self.read_and_keep_if_changed()
        return [who for who, digest in self.digests.items() if digest is None]

    def write_and_return_new_token(self, who: str) -> str:
        """Gives the participant a new token in place of any earlier one, and returns it."""
        token = draw_token(who)
        with self.rewriting() as digests:
            digests[who] = digest_of(token)
        return token

    def write_and_return_new_tokens(self, names: Iterable[str]) -> dict[str, str]:
        """Gives a token to each of these who isn't a participant yet, and returns the tokens."""
        with self.rewriting() as digests:
            tokens = {who: draw_token(who) for who in names if who not in digests}
            digests.update((who, digest_of(token)) for who, token in tokens.items())
        return tokens

    def write_revoked(self, who: str) -> None:
        with self.rewriting() as digests:
            digests[who] = None

    @contextlib.contextmanager
    def rewriting(self) -> Iterator[dict[str, str | None]]:
        """The digests, which are written again at the end, in one piece. Other processes that change them wait until then, so that no
        change is lost; the lock ends with the process."""
        lock = os.open(f"{self.path}.lock", os.O_RDWR | os.O_CREAT, 0o600)
        try:
            folder.give_to_owner_of(lock, self.path.parent)
            fcntl.flock(lock, fcntl.LOCK_EX)
            replacing.remove_leftovers(self.path.parent)
            self.seen = None  # a change within the resolution of the file's time is seen too
            self.read_and_keep_if_changed()
            digests = dict(self.digests)
            yield digests
            folder.write_synced(self.path, folder.json_bytes(digests))
            self.seen = None
        finally:
            os.close(lock)
