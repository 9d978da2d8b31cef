"""Scripts for `play`, made from a random draw."""
from __future__ import annotations

import datetime
import random
from typing import Callable, List, NamedTuple

DAY = datetime.datetime(2026, 11, 29, 18)
SERVICES = (101, 102, 103)
FOREIGN = 999
RATES = ("", "", "rate,200000\n", "rate,1000000\n")
BAD = ("swop", "feed,1,put,101,1,x,00:30:00,eng,A,,,,,", "=,done", "item,1,x", "feed,1,name,101", "publish,1")
WORDS = ("Harbour", "Fjord", "News, 24", "Mañana", 'The "Late" Show', "Tänään", "Ship of Night")


class Command(NamedTuple):
    """A command with its item lines; or, where it has no entry, a line at fault."""

    text: str
    has_entry: bool = True

    @property
    def is_swap(self) -> bool:
        return self.text.rstrip("\n").split(",")[-1] == "swap"


class Script(NamedTuple):
    """The description of a multiplex, and what comes after it."""

    description: str
    commands: List[Command]

    def text(self, begin: int = 0, end: int = 1 << 60) -> bytes:
        """The input with these commands."""
        return (self.description + "".join(command.text for command in self.commands[begin:end])).encode()

    def without_bad(self) -> "Script":
        return Script(self.description, [command for command in self.commands if command.has_entry])


def quoted(text: str) -> str:
    return '"' + text.replace('"', '""') + '"' if "," in text or '"' in text else text


def moment(minutes: int) -> str:
    return (DAY + datetime.timedelta(minutes=minutes)).strftime("%Y-%m-%dT%H:%M:%SZ")


class Maker:
    """Makes the commands of a script, one after the other."""

    def __init__(self, draws: random.Random, is_simple: bool) -> None:
        self._draws = draws
        self._is_simple = is_simple
        self._minutes = 0

    def script(self, length: int, swaps: int) -> Script:
        """A script of so many commands besides its swaps, the last of which comes at its end."""
        places = [self._draws.randrange(length + 1) for _ in range(swaps - 1)]
        commands: List[Command] = []
        for place in range(length + 1):
            commands += [self._swap()] * places.count(place)
            commands.append(self._command() if place < length else self._swap())
        return Script(self._description(), commands)

    def _description(self) -> str:
        services = "".join(f"service,{service},{1 + service % 2},1,{service + 200},{service + 300},Acme,One\n" for service in SERVICES)
        return f"network,40,Demo\nstream,1,1\n{services}{'' if self._is_simple else self._draws.choice(RATES)}end\n"

    def _swap(self) -> Command:
        return Command(self._draws.choice(("", "", "7,")) + "swap\n")

    def _command(self) -> Command:
        simple: List[Callable[[], str]] = [self._name, self._name, self._name, self._publish, self._publish, self._tick, self._foreign]
        full: List[Callable[[], str]] = [self._put, self._put, self._put, self._withdraw, self._clear, self._day]
        if self._draws.random() < 0.1:
            return Command(self._draws.choice(BAD[:1] if self._is_simple else BAD) + "\n", False)
        return Command(self._draws.choice(simple if self._is_simple else simple + full)() + "\n")

    def _feed(self) -> str:
        service = self._draws.choice(SERVICES)
        return f"feed,{1 + service % 2},@,{service}"

    def _word(self) -> str:
        return quoted(f"{self._draws.choice(WORDS)} {self._draws.randrange(1000)}")

    def _name(self) -> str:
        return self._feed().replace("@", "name") + f",Acme,{self._word()}"

    def _foreign(self) -> str:
        return f"feed,1,name,{FOREIGN},Acme,{self._word()}"

    def _publish(self) -> str:
        return self._draws.choice(("publish", "3,publish"))

    def _tick(self) -> str:
        self._minutes += self._draws.randrange(-5, 40)
        return f"tick,{moment(max(0, self._minutes))}"

    def _event(self) -> str:
        start = moment(30 * self._draws.randrange(0, 20))
        text = self._word() if self._draws.randrange(2) else ""
        rating = self._draws.choice((",", "GBR,9"))
        return f"{self._draws.randrange(1, 12)},{start},00:{self._draws.randrange(5, 45):02}:00,eng,{self._word()},{text},,{rating},1.0.0"

    def _put(self) -> str:
        return self._feed().replace("@", "put") + f",{self._event()}"

    def _withdraw(self) -> str:
        return self._feed().replace("@", "withdraw") + f",{self._draws.randrange(1, 12)}"

    def _clear(self) -> str:
        return self._feed().replace("@", "clear")

    def _day(self) -> str:
        items = [f"\nitem,{self._event()}" for _ in range(self._draws.randrange(0, 4))]
        return self._feed().replace("@", "day") + f",2026-11-29,{len(items)}" + "".join(items)
