"""A slip in words and as a dictionary: what the examiner sees of it, and what the candidate sees (01, Slips).

The views are what the module `revosti` answers; the words are those of the six bytes.
"""

from struct import unpack

from revosti import STOPPED, candidate_view, examiner_view, meaning

from .phrases import say
from .words import counted


def tell_slip(slip):
    """Both views of a slip, as text."""
    examiner, candidate = examiner_view(slip), candidate_view(slip)
    return "\n".join([say("slip", slip=slip, not_="" if examiner[1] else "not "),
                      say("examiner", bytes=shown(examiner), words=words(*unpack("<BBHH", examiner))),
                      say("candidate", bytes=shown(candidate), words=told(candidate, examiner))])


def as_json(slip):
    """Both views of a slip, as a dictionary."""
    examiner = fields(examiner_view(slip))
    return {"refusal": examiner["refusal"], "slip": slip, "released": bool(examiner["released"]),
            "examiner": examiner, "candidate": fields(candidate_view(slip))}


def fields(view):
    """The bytes of a view, and what they hold."""
    number, released, record, lines = unpack("<BBHH", view)
    return {"bytes": list(view), "refusal": number, "released": released, "record": record, "lines": lines}


def shown(view):
    """The bytes of a view."""
    return " ".join(map(str, view))


def told(candidate, examiner):
    """What the candidate's bytes say. Until release, 255 tells no number."""
    if candidate == examiner:
        return say("the_same")
    number, _, _, lines = unpack("<BBHH", candidate)
    return f"{say('stopped' if number == STOPPED else 'no_refusal')}, {accepted(lines)}."


def words(number, _, record, lines):
    """What the examiner's bytes say."""
    place = f", record {record}" if record else ""
    found = say("refused_by", number=number) if number else say("no_refusal")
    return f"{found}{place}, {accepted(lines)}." + (f" {meaning(number)}" if number else "")


def accepted(lines):
    """How many lines are accepted."""
    return say("lines_accepted", lines=counted(lines, "line"))
