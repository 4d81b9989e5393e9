"""What cq_test_states prints: each answer with where it is from, how many writes there were, and where each view stands."""
import re
from typing import NamedTuple

from scripts_cut import end_of_answer, words

NO_MEMORY = "error 1 out of memory\n"


class State(NamedTuple):
    """Where a query was answered from, or None; the answer; writes and drawn numbers; how many writes each view has taken in."""
    source: str
    answer: str
    counts: tuple
    epochs: dict


def states(output):
    """The states of an output. One that is cut short is left out."""
    found, at = [], 0
    while at < len(output):
        source = re.compile(r"from (.*)\n").match(output, at)
        start = source.end() if source else at
        end = end_of_answer(output, start)
        told = re.compile(r"now (\d+) drawn (\d+)((?: \w+ \w+)*)\n").match(output, end)
        if not told:
            break
        words = told[3].split()
        epochs = {name: None if it == "none" else int(it) for name, it in zip(words[::2], words[1::2])}
        found.append(State(source and source[1], output[start:end], (int(told[1]), int(told[2])), epochs))
        at = told.end()
    return found


def goals(text, state, before, now):
    """To which epoch each view may have come by a statement, and whether it has come there."""
    said, is_done = words(text), not state.answer.startswith("error ")
    if said[:2] in (["create", "view"], ["drop", "view"]) and is_done:
        return {said[2]: now if said[0] == "create" else None}, True
    if said[:1] == ["refresh"] and before.get(said[1]) is not None and len(said) > 2:
        return {said[1]: min(before[said[1]] + int(said[2]), now)}, is_done
    if said[:1] != ["select"]:
        return {}, True
    named = [name for word, name in zip(said, said[1:]) if word in ("from", "join")]
    if state.source in before:
        named = [state.source]
    return {name: now for name in named if before.get(name) is not None}, is_done


def stands(text, state, before, now):
    """Whether each view stands where it may behind a statement, where it stood so before."""
    to, is_there = goals(text, state, before, now)
    for name, epoch in state.epochs.items():
        old = before.get(name)
        if name not in to:
            is_right = epoch == old
        elif is_there:
            is_right = epoch == to[name]
        else:
            is_right = old <= epoch <= to[name]
        if not is_right:
            return False
    return True


def is_right(pieces, told, rest):
    """Whether these are the states of a script of which some statements found no memory, where the others alone have the
    states of the rest."""
    if len(told) != len(pieces):
        return False
    others, counts, epochs = iter(rest), (0, 0), {}
    for text, state in zip(pieces, told):
        if state.answer == NO_MEMORY:
            is_same = state.counts == counts
        else:
            other = next(others, None)
            is_same = other is not None and other[:3] == state[:3]
        if not is_same or not stands(text, state, epochs, state.counts[0]):
            return False
        counts, epochs = state.counts, state.epochs
    return next(others, None) is None
