"""What the lock answers, and the line that the program prints."""

from __future__ import annotations

from dataclasses import dataclass

from .numbers import ACCEPTED, name_of


@dataclass(frozen=True)
class Answer:
    """The lock's answer: its number, count and bytes of the requests made, the digest where it was reached, and the fee where
    the scene is accepted. `requests` has the requests' bytes end to end."""

    number: int
    count: int
    length: int
    digest: bytes | None
    fee: int | None
    requests: bytes

    @property
    def accepted(self) -> bool:
        return self.number == ACCEPTED

    def line(self) -> str:
        """The line that the program prints, without its ending."""
        digest = self.digest.hex() if self.digest is not None else ""
        fee = self.fee if self.fee is not None else ""
        return f"answer,{self.number},{self.count},{self.length},{digest},{fee}"

    def data(self) -> dict:
        """The answer for JSON."""
        return {
            "number": self.number,
            "name": name_of(self.number),
            "count": self.count,
            "length": self.length,
            "digest": self.digest.hex() if self.digest is not None else None,
            "fee": self.fee,
        }
