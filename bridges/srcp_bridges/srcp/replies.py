"""What becomes of a command: the codes of SRCP, and a refusal as a value. Texts are made of these where they are told.
"""
from enum import IntEnum, StrEnum


class Code(IntEnum):
    """The codes of replies that programs here tell apart, or answer with."""
    OK = 200
    UNKNOWN_COMMAND = 410
    WRONG_VALUE = 412
    PROHIBITED = 413
    LOCKED = 414
    FORBIDDEN = 415
    NO_DATA = 416
    TIMEOUT = 417
    TOO_LONG = 418
    TOO_SHORT = 419
    NO_PROTOCOL = 420
    NO_GROUP = 422
    NO_OPERATION = 423


class Reason(StrEnum):
    """Why a program here refuses a command itself, for parts of the program that tell the reason apart; in the words
    told to people."""
    STOPPED = "it was stopped meanwhile"
    AWAY = "the server is away"
    FULL = "the server is full"
    UNSURE = "not confirmed: trains may drive"


TEXTS = {Code.WRONG_VALUE: "wrong value", Code.PROHIBITED: "temporarily prohibited", Code.FORBIDDEN: "forbidden",
         Code.NO_DATA: "no data", Code.TIMEOUT: "timeout", Code.TOO_LONG: "list too long",
         Code.TOO_SHORT: "list too short", Code.NO_PROTOCOL: "unsupported device protocol",
         Code.NO_OPERATION: "unsupported operation"}


def error(code: Code) -> str:
    """Returns the error reply of a code, without its stamp."""
    return f"{code} ERROR {TEXTS[code]}"


class Refused(Exception):
    """A command that is not carried out. `code` is the code of the server's error reply, or the Reason of a program
    here; None: no part tells the refusal apart. The text is for people, as `414 ERROR device locked`."""

    def __init__(self, code: int | Reason | None, text: str):
        super().__init__(text)
        self.code = code


def refusal(code: Code | Reason) -> Refused:
    """Returns the refusal of a code or a reason in its usual words."""
    return Refused(code, code if isinstance(code, Reason) else error(code))


def outcome(refused: Refused | None) -> dict[str, object]:
    """Returns the outcome of a command for a page: the reply in words, and the code or the name of the reason."""
    if not refused:
        return {"reply": "200 OK", "code": Code.OK}
    return {"reply": str(refused), "code": refused.code.name if isinstance(refused.code, Reason) else refused.code}
