"""Why the office refuses a request, in the words that its participant gets."""

import enum

STOPPED_WORDS = "the day is stopped: ask the operator"
CLOSED_WORDS = "the day is closed, and this command isn't in its journal"


class RequestFault(enum.Enum):
    """The faults of requests: the word for each in an answer, and the answer's status. The last two are of any request, and so
    openapi.json doesn't have them."""

    MALFORMED = "Malformed", 400
    TOKEN = "Token", 401
    SHARE_USED = "ShareUsed", 403
    NOT_FOUND = "NotFound", 404
    NUMBER_USED = "NumberUsed", 409
    NUMBER_AHEAD = "NumberAhead", 409
    CLOSED = "Closed", 410
    TOO_LARGE = "TooLarge", 413
    TOO_FAST = "TooFast", 429
    UNAVAILABLE = "Unavailable", 503
    METHOD = "Method", 405
    DEFECT = "Defect", 500

    def __init__(self, word: str, status: int) -> None:
        self.word, self.status = word, status


class Refused(Exception):
    """A request that enters nothing: the fault, the words for it, the seconds to wait, and further members of the answer."""

    def __init__(self, fault: RequestFault, words: str, seconds: float | None = None, **more: int) -> None:
        super().__init__(words)
        self.fault, self.seconds, self.more = fault, seconds, more


def unread_tokens_refusal() -> Refused:
    """The fault of a request while the file of the tokens can't be read."""
    return Refused(RequestFault.UNAVAILABLE, "the office can't read its tokens: send the same command again", seconds=1)
