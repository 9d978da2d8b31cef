"""The descriptors that an edit adds to an event: links of programmes and series, and kinds of components, as far as there is room for them."""
from __future__ import annotations

from typing import List, NamedTuple, Sequence, Tuple

from crids import Reference, reference_size
from dvb_descriptors import Component, write_component, write_references
from event_sizes import DESCRIPTORS

HEAD = 2


class Fitted(NamedTuple):
    """Whole descriptors, and whether nothing was left out of them."""

    descriptors: Tuple[bytes, ...]
    is_all: bool


def fitted_descriptors(components: Sequence[Component], references: Sequence[Reference], limit: int = DESCRIPTORS) -> Fitted:
    """The descriptors of an event with at most so many bytes. Links have room before components, and of each the first before the others."""
    room = limit
    links: List[Reference] = []
    for reference in references:
        size = reference_size(reference) + (0 if links else HEAD)
        if size <= room:
            links.append(reference)
            room -= size
    found: List[bytes] = []
    for component in components:
        coded = write_component(component)
        if len(coded) <= room:
            found.append(coded)
            room -= len(coded)
    is_all = (len(links), len(found)) == (len(references), len(components))
    return Fitted((*found, *([write_references(links)] if links else [])), is_all)
